# add_ir_program(NAME [LEVEL -O1] SOURCES FILE ..)
#
# Builds NAME.bc in the current binary folder: each C file to a text by clang, and all texts, with
# .ll files of the list as they are, to one module by llvm-link. Clang lists what a file
# includes, so that only what changed is made again. NAME_FILE in the caller's scope is the module.
find_program(IR_CLANG NAMES clang-19 clang REQUIRED)
find_program(IR_TOOLS NAMES ir-tools PATHS ${CMAKE_CURRENT_LIST_DIR}/../.. REQUIRED)
set(IR_FLAGS ${CMAKE_CURRENT_LIST_DIR}/../cflags)

function(add_ir_program name)
    cmake_parse_arguments(PARSE_ARGV 1 program "" "LEVEL" "SOURCES")
    if(NOT program_LEVEL)
        set(program_LEVEL -O1)
    endif()
    set(texts "")
    foreach(source IN LISTS program_SOURCES)
        get_filename_component(kind ${source} LAST_EXT)
        if(kind STREQUAL ".c")
            add_ir_text(${name} ${program_LEVEL} ${source} text)
        else()
            get_filename_component(text ${source} ABSOLUTE)
        endif()
        list(APPEND texts ${text})
    endforeach()
    set(module ${CMAKE_CURRENT_BINARY_DIR}/${name}.bc)
    add_custom_command(OUTPUT ${module} DEPENDS ${texts} VERBATIM
        COMMAND ${IR_TOOLS} llvm-link -o ${module} ${texts})
    add_custom_target(${name} ALL DEPENDS ${module})
    set(${name}_FILE ${module} PARENT_SCOPE)
endfunction()

# The text of one C file. The first command lists what the file includes, by absolute paths; the
# second is called in the file's own folder, so that no path of this machine is in the text.
function(add_ir_text name level source result)
    get_filename_component(file ${source} ABSOLUTE)
    get_filename_component(folder ${file} DIRECTORY)
    get_filename_component(base ${file} NAME_WE)
    set(text ${CMAKE_CURRENT_BINARY_DIR}/${name}.dir/${base}.ll)
    file(MAKE_DIRECTORY ${CMAKE_CURRENT_BINARY_DIR}/${name}.dir)
    add_custom_command(OUTPUT ${text} DEPENDS ${file} ${IR_FLAGS} DEPFILE ${text}.d VERBATIM
        WORKING_DIRECTORY ${folder}
        COMMAND ${IR_CLANG} ${level} @${IR_FLAGS} -MM -MF ${text}.d -MT ${text} ${file}
        COMMAND ${IR_CLANG} ${level} @${IR_FLAGS} -S -emit-llvm -o ${text} ${base}.c)
    set(${result} ${text} PARENT_SCOPE)
endfunction()
