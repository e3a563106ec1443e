; ModuleID = 'maze.c'
source_filename = "maze.c"
target datalayout = "e-m:e-p270:32:32-p271:32:32-p272:64:64-i64:64-i128:128-f80:128-n8:16:32:64-S128"
target triple = "x86_64-pc-linux-gnu"

%struct.Place = type { i16, i16 }

@main.ways = internal constant [4 x %struct.Place] [%struct.Place { i16 0, i16 1 }, %struct.Place { i16 1, i16 0 }, %struct.Place { i16 0, i16 -1 }, %struct.Place { i16 -1, i16 0 }], align 16
@maze = internal constant [7 x [16 x i8]] [[16 x i8] c"###############\00", [16 x i8] c"#S..#.....#...#\00", [16 x i8] c"###.#.###.#.#.#\00", [16 x i8] c"#...#.#.#...#.#\00", [16 x i8] c"#.###.#.#####.#\00", [16 x i8] c"#.......#....E#\00", [16 x i8] c"###############\00"], align 16

; Function Attrs: noinline nounwind optnone uwtable
define dso_local i32 @main() #0 {
  %1 = alloca i32, align 4
  %2 = alloca [16 x %struct.Place], align 16
  %3 = alloca %struct.Place, align 2
  %4 = alloca %struct.Place, align 2
  %5 = alloca [7 x [15 x %struct.Place]], align 16
  %6 = alloca i32, align 4
  %7 = alloca i32, align 4
  %8 = alloca i32, align 4
  %9 = alloca [7 x [15 x i32]], align 16
  %10 = alloca [7 x [16 x i8]], align 16
  %11 = alloca i16, align 2
  %12 = alloca i16, align 2
  %13 = alloca %struct.Place, align 2
  %14 = alloca %struct.Place, align 2
  %15 = alloca %struct.Place, align 2
  %16 = alloca i32, align 4
  %17 = alloca %struct.Place, align 2
  %18 = alloca %struct.Place, align 2
  %19 = alloca i32, align 4
  store i32 0, ptr %1, align 4
  call void @llvm.memset.p0.i64(ptr align 2 %3, i8 0, i64 4, i1 false)
  call void @llvm.memset.p0.i64(ptr align 2 %4, i8 0, i64 4, i1 false)
  store i32 0, ptr %6, align 4
  store i32 0, ptr %7, align 4
  store i32 0, ptr %8, align 4
  %20 = getelementptr inbounds [7 x [16 x i8]], ptr %10, i64 0, i64 0
  call void @llvm.memcpy.p0.p0.i64(ptr align 16 %20, ptr align 16 @maze, i64 112, i1 false)
  %21 = getelementptr inbounds [7 x [15 x i32]], ptr %9, i64 0, i64 0
  call void @llvm.memset.p0.i64(ptr align 16 %21, i8 -1, i64 420, i1 false)
  store i16 0, ptr %11, align 2
  br label %22

22:                                               ; preds = %66, %0
  %23 = load i16, ptr %11, align 2
  %24 = sext i16 %23 to i32
  %25 = icmp slt i32 %24, 7
  br i1 %25, label %26, label %69

26:                                               ; preds = %22
  store i16 0, ptr %12, align 2
  br label %27

27:                                               ; preds = %62, %26
  %28 = load i16, ptr %12, align 2
  %29 = sext i16 %28 to i32
  %30 = icmp slt i32 %29, 15
  br i1 %30, label %31, label %65

31:                                               ; preds = %27
  %32 = load i16, ptr %11, align 2
  %33 = sext i16 %32 to i64
  %34 = getelementptr inbounds [7 x [16 x i8]], ptr @maze, i64 0, i64 %33
  %35 = load i16, ptr %12, align 2
  %36 = sext i16 %35 to i64
  %37 = getelementptr inbounds [16 x i8], ptr %34, i64 0, i64 %36
  %38 = load i8, ptr %37, align 1
  %39 = sext i8 %38 to i32
  %40 = icmp eq i32 %39, 83
  br i1 %40, label %41, label %46

41:                                               ; preds = %31
  %42 = getelementptr inbounds %struct.Place, ptr %13, i32 0, i32 0
  %43 = load i16, ptr %11, align 2
  store i16 %43, ptr %42, align 2
  %44 = getelementptr inbounds %struct.Place, ptr %13, i32 0, i32 1
  %45 = load i16, ptr %12, align 2
  store i16 %45, ptr %44, align 2
  call void @llvm.memcpy.p0.p0.i64(ptr align 2 %3, ptr align 2 %13, i64 4, i1 false)
  br label %46

46:                                               ; preds = %41, %31
  %47 = load i16, ptr %11, align 2
  %48 = sext i16 %47 to i64
  %49 = getelementptr inbounds [7 x [16 x i8]], ptr @maze, i64 0, i64 %48
  %50 = load i16, ptr %12, align 2
  %51 = sext i16 %50 to i64
  %52 = getelementptr inbounds [16 x i8], ptr %49, i64 0, i64 %51
  %53 = load i8, ptr %52, align 1
  %54 = sext i8 %53 to i32
  %55 = icmp eq i32 %54, 69
  br i1 %55, label %56, label %61

56:                                               ; preds = %46
  %57 = getelementptr inbounds %struct.Place, ptr %14, i32 0, i32 0
  %58 = load i16, ptr %11, align 2
  store i16 %58, ptr %57, align 2
  %59 = getelementptr inbounds %struct.Place, ptr %14, i32 0, i32 1
  %60 = load i16, ptr %12, align 2
  store i16 %60, ptr %59, align 2
  call void @llvm.memcpy.p0.p0.i64(ptr align 2 %4, ptr align 2 %14, i64 4, i1 false)
  br label %61

61:                                               ; preds = %56, %46
  br label %62

62:                                               ; preds = %61
  %63 = load i16, ptr %12, align 2
  %64 = add i16 %63, 1
  store i16 %64, ptr %12, align 2
  br label %27, !llvm.loop !4

65:                                               ; preds = %27
  br label %66

66:                                               ; preds = %65
  %67 = load i16, ptr %11, align 2
  %68 = add i16 %67, 1
  store i16 %68, ptr %11, align 2
  br label %22, !llvm.loop !6

69:                                               ; preds = %22
  %70 = getelementptr inbounds %struct.Place, ptr %3, i32 0, i32 0
  %71 = load i16, ptr %70, align 2
  %72 = sext i16 %71 to i64
  %73 = getelementptr inbounds [7 x [15 x i32]], ptr %9, i64 0, i64 %72
  %74 = getelementptr inbounds %struct.Place, ptr %3, i32 0, i32 1
  %75 = load i16, ptr %74, align 2
  %76 = sext i16 %75 to i64
  %77 = getelementptr inbounds [15 x i32], ptr %73, i64 0, i64 %76
  store i32 0, ptr %77, align 4
  %78 = load i32, ptr %7, align 4
  %79 = add nsw i32 %78, 1
  store i32 %79, ptr %7, align 4
  %80 = sext i32 %78 to i64
  %81 = getelementptr inbounds [16 x %struct.Place], ptr %2, i64 0, i64 %80
  call void @llvm.memcpy.p0.p0.i64(ptr align 4 %81, ptr align 2 %3, i64 4, i1 false)
  br label %82

82:                                               ; preds = %188, %69
  %83 = load i32, ptr %7, align 4
  %84 = icmp ne i32 %83, 0
  br i1 %84, label %85, label %189

85:                                               ; preds = %82
  %86 = load i32, ptr %6, align 4
  %87 = sext i32 %86 to i64
  %88 = getelementptr inbounds [16 x %struct.Place], ptr %2, i64 0, i64 %87
  call void @llvm.memcpy.p0.p0.i64(ptr align 2 %15, ptr align 4 %88, i64 4, i1 false)
  %89 = load i32, ptr %6, align 4
  %90 = add nsw i32 %89, 1
  %91 = srem i32 %90, 16
  store i32 %91, ptr %6, align 4
  %92 = load i32, ptr %7, align 4
  %93 = add nsw i32 %92, -1
  store i32 %93, ptr %7, align 4
  store i32 0, ptr %16, align 4
  br label %94

94:                                               ; preds = %185, %85
  %95 = load i32, ptr %16, align 4
  %96 = icmp slt i32 %95, 4
  br i1 %96, label %97, label %188

97:                                               ; preds = %94
  %98 = getelementptr inbounds %struct.Place, ptr %17, i32 0, i32 0
  %99 = getelementptr inbounds %struct.Place, ptr %15, i32 0, i32 0
  %100 = load i16, ptr %99, align 2
  %101 = sext i16 %100 to i32
  %102 = load i32, ptr %16, align 4
  %103 = sext i32 %102 to i64
  %104 = getelementptr inbounds [4 x %struct.Place], ptr @main.ways, i64 0, i64 %103
  %105 = getelementptr inbounds %struct.Place, ptr %104, i32 0, i32 0
  %106 = load i16, ptr %105, align 4
  %107 = sext i16 %106 to i32
  %108 = add nsw i32 %101, %107
  %109 = trunc i32 %108 to i16
  store i16 %109, ptr %98, align 2
  %110 = getelementptr inbounds %struct.Place, ptr %17, i32 0, i32 1
  %111 = getelementptr inbounds %struct.Place, ptr %15, i32 0, i32 1
  %112 = load i16, ptr %111, align 2
  %113 = sext i16 %112 to i32
  %114 = load i32, ptr %16, align 4
  %115 = sext i32 %114 to i64
  %116 = getelementptr inbounds [4 x %struct.Place], ptr @main.ways, i64 0, i64 %115
  %117 = getelementptr inbounds %struct.Place, ptr %116, i32 0, i32 1
  %118 = load i16, ptr %117, align 2
  %119 = sext i16 %118 to i32
  %120 = add nsw i32 %113, %119
  %121 = trunc i32 %120 to i16
  store i16 %121, ptr %110, align 2
  %122 = getelementptr inbounds %struct.Place, ptr %17, i32 0, i32 0
  %123 = load i16, ptr %122, align 2
  %124 = sext i16 %123 to i64
  %125 = getelementptr inbounds [7 x [16 x i8]], ptr @maze, i64 0, i64 %124
  %126 = getelementptr inbounds %struct.Place, ptr %17, i32 0, i32 1
  %127 = load i16, ptr %126, align 2
  %128 = sext i16 %127 to i64
  %129 = getelementptr inbounds [16 x i8], ptr %125, i64 0, i64 %128
  %130 = load i8, ptr %129, align 1
  %131 = sext i8 %130 to i32
  %132 = icmp eq i32 %131, 35
  br i1 %132, label %144, label %133

133:                                              ; preds = %97
  %134 = getelementptr inbounds %struct.Place, ptr %17, i32 0, i32 0
  %135 = load i16, ptr %134, align 2
  %136 = sext i16 %135 to i64
  %137 = getelementptr inbounds [7 x [15 x i32]], ptr %9, i64 0, i64 %136
  %138 = getelementptr inbounds %struct.Place, ptr %17, i32 0, i32 1
  %139 = load i16, ptr %138, align 2
  %140 = sext i16 %139 to i64
  %141 = getelementptr inbounds [15 x i32], ptr %137, i64 0, i64 %140
  %142 = load i32, ptr %141, align 4
  %143 = icmp sge i32 %142, 0
  br i1 %143, label %144, label %145

144:                                              ; preds = %133, %97
  br label %185

145:                                              ; preds = %133
  %146 = getelementptr inbounds %struct.Place, ptr %15, i32 0, i32 0
  %147 = load i16, ptr %146, align 2
  %148 = sext i16 %147 to i64
  %149 = getelementptr inbounds [7 x [15 x i32]], ptr %9, i64 0, i64 %148
  %150 = getelementptr inbounds %struct.Place, ptr %15, i32 0, i32 1
  %151 = load i16, ptr %150, align 2
  %152 = sext i16 %151 to i64
  %153 = getelementptr inbounds [15 x i32], ptr %149, i64 0, i64 %152
  %154 = load i32, ptr %153, align 4
  %155 = add nsw i32 %154, 1
  %156 = getelementptr inbounds %struct.Place, ptr %17, i32 0, i32 0
  %157 = load i16, ptr %156, align 2
  %158 = sext i16 %157 to i64
  %159 = getelementptr inbounds [7 x [15 x i32]], ptr %9, i64 0, i64 %158
  %160 = getelementptr inbounds %struct.Place, ptr %17, i32 0, i32 1
  %161 = load i16, ptr %160, align 2
  %162 = sext i16 %161 to i64
  %163 = getelementptr inbounds [15 x i32], ptr %159, i64 0, i64 %162
  store i32 %155, ptr %163, align 4
  %164 = getelementptr inbounds %struct.Place, ptr %17, i32 0, i32 0
  %165 = load i16, ptr %164, align 2
  %166 = sext i16 %165 to i64
  %167 = getelementptr inbounds [7 x [15 x %struct.Place]], ptr %5, i64 0, i64 %166
  %168 = getelementptr inbounds %struct.Place, ptr %17, i32 0, i32 1
  %169 = load i16, ptr %168, align 2
  %170 = sext i16 %169 to i64
  %171 = getelementptr inbounds [15 x %struct.Place], ptr %167, i64 0, i64 %170
  call void @llvm.memcpy.p0.p0.i64(ptr align 4 %171, ptr align 2 %15, i64 4, i1 false)
  %172 = load i32, ptr %6, align 4
  %173 = load i32, ptr %7, align 4
  %174 = add nsw i32 %173, 1
  store i32 %174, ptr %7, align 4
  %175 = add nsw i32 %172, %173
  %176 = srem i32 %175, 16
  %177 = sext i32 %176 to i64
  %178 = getelementptr inbounds [16 x %struct.Place], ptr %2, i64 0, i64 %177
  call void @llvm.memcpy.p0.p0.i64(ptr align 4 %178, ptr align 2 %17, i64 4, i1 false)
  %179 = load i32, ptr %7, align 4
  %180 = load i32, ptr %8, align 4
  %181 = icmp sgt i32 %179, %180
  br i1 %181, label %182, label %184

182:                                              ; preds = %145
  %183 = load i32, ptr %7, align 4
  store i32 %183, ptr %8, align 4
  br label %184

184:                                              ; preds = %182, %145
  br label %185

185:                                              ; preds = %184, %144
  %186 = load i32, ptr %16, align 4
  %187 = add nsw i32 %186, 1
  store i32 %187, ptr %16, align 4
  br label %94, !llvm.loop !7

188:                                              ; preds = %94
  br label %82, !llvm.loop !8

189:                                              ; preds = %82
  %190 = getelementptr inbounds %struct.Place, ptr %4, i32 0, i32 0
  %191 = load i16, ptr %190, align 2
  %192 = sext i16 %191 to i64
  %193 = getelementptr inbounds [7 x [15 x i32]], ptr %9, i64 0, i64 %192
  %194 = getelementptr inbounds %struct.Place, ptr %4, i32 0, i32 1
  %195 = load i16, ptr %194, align 2
  %196 = sext i16 %195 to i64
  %197 = getelementptr inbounds [15 x i32], ptr %193, i64 0, i64 %196
  %198 = load i32, ptr %197, align 4
  %199 = icmp slt i32 %198, 0
  br i1 %199, label %200, label %201

200:                                              ; preds = %189
  store i32 1, ptr %1, align 4
  br label %272

201:                                              ; preds = %189
  %202 = getelementptr inbounds %struct.Place, ptr %4, i32 0, i32 0
  %203 = load i16, ptr %202, align 2
  %204 = sext i16 %203 to i64
  %205 = getelementptr inbounds [7 x [15 x %struct.Place]], ptr %5, i64 0, i64 %204
  %206 = getelementptr inbounds %struct.Place, ptr %4, i32 0, i32 1
  %207 = load i16, ptr %206, align 2
  %208 = sext i16 %207 to i64
  %209 = getelementptr inbounds [15 x %struct.Place], ptr %205, i64 0, i64 %208
  call void @llvm.memcpy.p0.p0.i64(ptr align 2 %18, ptr align 4 %209, i64 4, i1 false)
  br label %210

210:                                              ; preds = %237, %201
  %211 = getelementptr inbounds %struct.Place, ptr %18, i32 0, i32 0
  %212 = load i16, ptr %211, align 2
  %213 = sext i16 %212 to i32
  %214 = getelementptr inbounds %struct.Place, ptr %3, i32 0, i32 0
  %215 = load i16, ptr %214, align 2
  %216 = sext i16 %215 to i32
  %217 = icmp ne i32 %213, %216
  br i1 %217, label %226, label %218

218:                                              ; preds = %210
  %219 = getelementptr inbounds %struct.Place, ptr %18, i32 0, i32 1
  %220 = load i16, ptr %219, align 2
  %221 = sext i16 %220 to i32
  %222 = getelementptr inbounds %struct.Place, ptr %3, i32 0, i32 1
  %223 = load i16, ptr %222, align 2
  %224 = sext i16 %223 to i32
  %225 = icmp ne i32 %221, %224
  br label %226

226:                                              ; preds = %218, %210
  %227 = phi i1 [ true, %210 ], [ %225, %218 ]
  br i1 %227, label %228, label %246

228:                                              ; preds = %226
  %229 = getelementptr inbounds %struct.Place, ptr %18, i32 0, i32 0
  %230 = load i16, ptr %229, align 2
  %231 = sext i16 %230 to i64
  %232 = getelementptr inbounds [7 x [16 x i8]], ptr %10, i64 0, i64 %231
  %233 = getelementptr inbounds %struct.Place, ptr %18, i32 0, i32 1
  %234 = load i16, ptr %233, align 2
  %235 = sext i16 %234 to i64
  %236 = getelementptr inbounds [16 x i8], ptr %232, i64 0, i64 %235
  store i8 43, ptr %236, align 1
  br label %237

237:                                              ; preds = %228
  %238 = getelementptr inbounds %struct.Place, ptr %18, i32 0, i32 0
  %239 = load i16, ptr %238, align 2
  %240 = sext i16 %239 to i64
  %241 = getelementptr inbounds [7 x [15 x %struct.Place]], ptr %5, i64 0, i64 %240
  %242 = getelementptr inbounds %struct.Place, ptr %18, i32 0, i32 1
  %243 = load i16, ptr %242, align 2
  %244 = sext i16 %243 to i64
  %245 = getelementptr inbounds [15 x %struct.Place], ptr %241, i64 0, i64 %244
  call void @llvm.memcpy.p0.p0.i64(ptr align 2 %18, ptr align 4 %245, i64 4, i1 false)
  br label %210, !llvm.loop !9

246:                                              ; preds = %226
  store i32 0, ptr %19, align 4
  br label %247

247:                                              ; preds = %256, %246
  %248 = load i32, ptr %19, align 4
  %249 = icmp slt i32 %248, 7
  br i1 %249, label %250, label %259

250:                                              ; preds = %247
  %251 = load i32, ptr %19, align 4
  %252 = sext i32 %251 to i64
  %253 = getelementptr inbounds [7 x [16 x i8]], ptr %10, i64 0, i64 %252
  %254 = getelementptr inbounds [16 x i8], ptr %253, i64 0, i64 0
  %255 = call i32 @puts(ptr noundef %254) #4
  br label %256

256:                                              ; preds = %250
  %257 = load i32, ptr %19, align 4
  %258 = add nsw i32 %257, 1
  store i32 %258, ptr %19, align 4
  br label %247, !llvm.loop !10

259:                                              ; preds = %247
  %260 = getelementptr inbounds %struct.Place, ptr %4, i32 0, i32 0
  %261 = load i16, ptr %260, align 2
  %262 = sext i16 %261 to i64
  %263 = getelementptr inbounds [7 x [15 x i32]], ptr %9, i64 0, i64 %262
  %264 = getelementptr inbounds %struct.Place, ptr %4, i32 0, i32 1
  %265 = load i16, ptr %264, align 2
  %266 = sext i16 %265 to i64
  %267 = getelementptr inbounds [15 x i32], ptr %263, i64 0, i64 %266
  %268 = load i32, ptr %267, align 4
  %269 = mul nsw i32 %268, 4
  %270 = load i32, ptr %8, align 4
  %271 = add nsw i32 %269, %270
  store i32 %271, ptr %1, align 4
  br label %272

272:                                              ; preds = %259, %200
  %273 = load i32, ptr %1, align 4
  ret i32 %273
}

; Function Attrs: nocallback nofree nounwind willreturn memory(argmem: write)
declare void @llvm.memset.p0.i64(ptr nocapture writeonly, i8, i64, i1 immarg) #1

; Function Attrs: nocallback nofree nounwind willreturn memory(argmem: readwrite)
declare void @llvm.memcpy.p0.p0.i64(ptr noalias nocapture writeonly, ptr noalias nocapture readonly, i64, i1 immarg) #2

declare dso_local i32 @puts(ptr noundef) #3

attributes #0 = { noinline nounwind optnone uwtable "frame-pointer"="all" "min-legal-vector-width"="0" "no-builtin-calloc" "no-trapping-math"="true" "stack-protector-buffer-size"="8" "target-cpu"="x86-64" "target-features"="+cmov,+cx8,+fxsr,-aes,-avx,-avx10.1-256,-avx10.1-512,-avx2,-avx512bf16,-avx512bitalg,-avx512bw,-avx512cd,-avx512dq,-avx512f,-avx512fp16,-avx512ifma,-avx512vbmi,-avx512vbmi2,-avx512vl,-avx512vnni,-avx512vp2intersect,-avx512vpopcntdq,-avxifma,-avxneconvert,-avxvnni,-avxvnniint16,-avxvnniint8,-f16c,-fma,-fma4,-gfni,-kl,-mmx,-pclmul,-sha,-sha512,-sm3,-sm4,-sse,-sse2,-sse3,-sse4.1,-sse4.2,-sse4a,-ssse3,-vaes,-vpclmulqdq,-widekl,-x87,-xop" "tune-cpu"="generic" }
attributes #1 = { nocallback nofree nounwind willreturn memory(argmem: write) }
attributes #2 = { nocallback nofree nounwind willreturn memory(argmem: readwrite) }
attributes #3 = { "frame-pointer"="all" "no-builtin-calloc" "no-trapping-math"="true" "stack-protector-buffer-size"="8" "target-cpu"="x86-64" "target-features"="+cmov,+cx8,+fxsr,-aes,-avx,-avx10.1-256,-avx10.1-512,-avx2,-avx512bf16,-avx512bitalg,-avx512bw,-avx512cd,-avx512dq,-avx512f,-avx512fp16,-avx512ifma,-avx512vbmi,-avx512vbmi2,-avx512vl,-avx512vnni,-avx512vp2intersect,-avx512vpopcntdq,-avxifma,-avxneconvert,-avxvnni,-avxvnniint16,-avxvnniint8,-f16c,-fma,-fma4,-gfni,-kl,-mmx,-pclmul,-sha,-sha512,-sm3,-sm4,-sse,-sse2,-sse3,-sse4.1,-sse4.2,-sse4a,-ssse3,-vaes,-vpclmulqdq,-widekl,-x87,-xop" "tune-cpu"="generic" }
attributes #4 = { "no-builtin-calloc" }

!llvm.module.flags = !{!0, !1, !2}
!llvm.ident = !{!3}

!0 = !{i32 1, !"wchar_size", i32 4}
!1 = !{i32 7, !"uwtable", i32 2}
!2 = !{i32 7, !"frame-pointer", i32 2}
!3 = !{!"Debian clang version 19.1.7 (3~deb12u1)"}
!4 = distinct !{!4, !5}
!5 = !{!"llvm.loop.mustprogress"}
!6 = distinct !{!6, !5}
!7 = distinct !{!7, !5}
!8 = distinct !{!8, !5}
!9 = distinct !{!9, !5}
!10 = distinct !{!10, !5}
