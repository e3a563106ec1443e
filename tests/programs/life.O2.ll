; ModuleID = 'life.c'
source_filename = "life.c"
target datalayout = "e-m:e-p270:32:32-p271:32:32-p272:64:64-i64:64-i128:128-f80:128-n8:16:32:64-S128"
target triple = "x86_64-pc-linux-gnu"

@main.boards = internal unnamed_addr global [2 x [10 x [14 x i8]]] zeroinitializer, align 16

; Function Attrs: nofree nounwind uwtable
define dso_local i32 @main() local_unnamed_addr #0 {
  tail call void @llvm.memset.p0.i64(ptr noundef nonnull align 16 dereferenceable(280) @main.boards, i8 0, i64 280, i1 false)
  store i8 1, ptr getelementptr inbounds (i8, ptr @main.boards, i64 16), align 16, !tbaa !3
  store i8 0, ptr getelementptr inbounds (i8, ptr @main.boards, i64 29), align 1, !tbaa !3
  store i8 1, ptr getelementptr inbounds (i8, ptr @main.boards, i64 31), align 1, !tbaa !3
  store i8 1, ptr getelementptr inbounds (i8, ptr @main.boards, i64 43), align 1, !tbaa !3
  store i8 1, ptr getelementptr inbounds (i8, ptr @main.boards, i64 44), align 4, !tbaa !3
  store i8 1, ptr getelementptr inbounds (i8, ptr @main.boards, i64 45), align 1, !tbaa !3
  tail call void @llvm.memset.p0.i64(ptr noundef nonnull align 1 dereferenceable(7) getelementptr inbounds (i8, ptr @main.boards, i64 103), i8 1, i64 7, i1 false), !tbaa !3
  br label %1

1:                                                ; preds = %0, %121
  %2 = phi i32 [ %122, %121 ], [ 0, %0 ]
  %3 = and i32 %2, 1
  %4 = zext nneg i32 %3 to i64
  %5 = getelementptr inbounds [2 x [10 x [14 x i8]]], ptr @main.boards, i64 0, i64 %4
  %6 = xor i32 %3, 1
  %7 = zext nneg i32 %6 to i64
  %8 = getelementptr inbounds [2 x [10 x [14 x i8]]], ptr @main.boards, i64 0, i64 %7
  br label %9

9:                                                ; preds = %64, %1
  %10 = phi i64 [ 0, %1 ], [ %65, %64 ]
  %11 = phi i32 [ 0, %1 ], [ %118, %64 ]
  %12 = trunc i64 %10 to i32
  %13 = add i32 %12, 9
  %14 = urem i32 %13, 10
  %15 = zext nneg i32 %14 to i64
  %16 = add i32 %12, 10
  %17 = urem i32 %16, 10
  %18 = zext nneg i32 %17 to i64
  %19 = add i32 %12, 11
  %20 = urem i32 %19, 10
  %21 = zext nneg i32 %20 to i64
  %22 = getelementptr inbounds [14 x i8], ptr %5, i64 %15, i64 13
  %23 = load i8, ptr %22, align 1, !tbaa !3
  %24 = getelementptr inbounds [14 x i8], ptr %5, i64 %15, i64 0
  %25 = load i8, ptr %24, align 2, !tbaa !3
  %26 = getelementptr inbounds [14 x i8], ptr %5, i64 %15, i64 1
  %27 = load i8, ptr %26, align 1, !tbaa !3
  %28 = getelementptr inbounds [14 x i8], ptr %5, i64 %18, i64 13
  %29 = load i8, ptr %28, align 1, !tbaa !3
  %30 = getelementptr inbounds [14 x i8], ptr %5, i64 %18, i64 1
  %31 = load i8, ptr %30, align 1, !tbaa !3
  %32 = getelementptr inbounds [14 x i8], ptr %5, i64 %21, i64 13
  %33 = load i8, ptr %32, align 1, !tbaa !3
  %34 = getelementptr inbounds [14 x i8], ptr %5, i64 %21, i64 0
  %35 = load i8, ptr %34, align 2, !tbaa !3
  %36 = zext i8 %23 to i32
  %37 = zext i8 %25 to i32
  %38 = add nuw nsw i32 %37, %36
  %39 = zext i8 %27 to i32
  %40 = add nuw nsw i32 %38, %39
  %41 = zext i8 %29 to i32
  %42 = add nuw nsw i32 %40, %41
  %43 = zext i8 %31 to i32
  %44 = add nuw nsw i32 %42, %43
  %45 = zext i8 %33 to i32
  %46 = add nuw nsw i32 %44, %45
  %47 = zext i8 %35 to i32
  %48 = add nuw nsw i32 %46, %47
  %49 = getelementptr inbounds [14 x i8], ptr %5, i64 %21, i64 1
  %50 = load i8, ptr %49, align 1, !tbaa !3
  %51 = zext i8 %50 to i32
  %52 = add nuw nsw i32 %48, %51
  switch i32 %52, label %57 [
    i32 3, label %58
    i32 2, label %53
  ]

53:                                               ; preds = %9
  %54 = getelementptr inbounds [14 x i8], ptr %5, i64 %10, i64 0
  %55 = load i8, ptr %54, align 2, !tbaa !3
  %56 = icmp ne i8 %55, 0
  br label %58

57:                                               ; preds = %9
  br label %58

58:                                               ; preds = %57, %53, %9
  %59 = phi i1 [ true, %9 ], [ %56, %53 ], [ false, %57 ]
  %60 = zext i1 %59 to i8
  %61 = getelementptr inbounds [14 x i8], ptr %8, i64 %10, i64 0
  store i8 %60, ptr %61, align 2, !tbaa !3
  %62 = zext i1 %59 to i32
  %63 = add nsw i32 %11, %62
  br label %67

64:                                               ; preds = %113
  %65 = add nuw nsw i64 %10, 1
  %66 = icmp eq i64 %65, 10
  br i1 %66, label %121, label %9, !llvm.loop !6

67:                                               ; preds = %113, %58
  %68 = phi i64 [ 1, %58 ], [ %119, %113 ]
  %69 = phi i32 [ %63, %58 ], [ %118, %113 ]
  %70 = shl i64 %68, 32
  %71 = add nsw i64 %70, -4294967296
  %72 = ashr exact i64 %71, 32
  %73 = getelementptr inbounds [14 x i8], ptr %5, i64 %15, i64 %72
  %74 = load i8, ptr %73, align 1, !tbaa !3
  %75 = getelementptr inbounds [14 x i8], ptr %5, i64 %15, i64 %68
  %76 = load i8, ptr %75, align 1, !tbaa !3
  %77 = trunc i64 %68 to i8
  %78 = add nuw nsw i8 %77, 15
  %79 = urem i8 %78, 14
  %80 = zext nneg i8 %79 to i64
  %81 = getelementptr inbounds [14 x i8], ptr %5, i64 %15, i64 %80
  %82 = load i8, ptr %81, align 1, !tbaa !3
  %83 = getelementptr inbounds [14 x i8], ptr %5, i64 %18, i64 %72
  %84 = load i8, ptr %83, align 1, !tbaa !3
  %85 = getelementptr inbounds [14 x i8], ptr %5, i64 %18, i64 %80
  %86 = load i8, ptr %85, align 1, !tbaa !3
  %87 = getelementptr inbounds [14 x i8], ptr %5, i64 %21, i64 %72
  %88 = load i8, ptr %87, align 1, !tbaa !3
  %89 = getelementptr inbounds [14 x i8], ptr %5, i64 %21, i64 %68
  %90 = load i8, ptr %89, align 1, !tbaa !3
  %91 = zext i8 %74 to i32
  %92 = zext i8 %76 to i32
  %93 = add nuw nsw i32 %92, %91
  %94 = zext i8 %82 to i32
  %95 = add nuw nsw i32 %93, %94
  %96 = zext i8 %84 to i32
  %97 = add nuw nsw i32 %95, %96
  %98 = zext i8 %86 to i32
  %99 = add nuw nsw i32 %97, %98
  %100 = zext i8 %88 to i32
  %101 = add nuw nsw i32 %99, %100
  %102 = zext i8 %90 to i32
  %103 = add nuw nsw i32 %101, %102
  %104 = getelementptr inbounds [14 x i8], ptr %5, i64 %21, i64 %80
  %105 = load i8, ptr %104, align 1, !tbaa !3
  %106 = zext i8 %105 to i32
  %107 = add nuw nsw i32 %103, %106
  switch i32 %107, label %112 [
    i32 3, label %113
    i32 2, label %108
  ]

108:                                              ; preds = %67
  %109 = getelementptr inbounds [14 x i8], ptr %5, i64 %10, i64 %68
  %110 = load i8, ptr %109, align 1, !tbaa !3
  %111 = icmp ne i8 %110, 0
  br label %113

112:                                              ; preds = %67
  br label %113

113:                                              ; preds = %112, %108, %67
  %114 = phi i1 [ true, %67 ], [ %111, %108 ], [ false, %112 ]
  %115 = zext i1 %114 to i8
  %116 = getelementptr inbounds [14 x i8], ptr %8, i64 %10, i64 %68
  store i8 %115, ptr %116, align 1, !tbaa !3
  %117 = zext i1 %114 to i32
  %118 = add nsw i32 %69, %117
  %119 = add nuw nsw i64 %68, 1
  %120 = icmp eq i64 %119, 14
  br i1 %120, label %64, label %67, !llvm.loop !8

121:                                              ; preds = %64
  %122 = add nuw nsw i32 %2, 1
  %123 = icmp eq i32 %122, 30
  br i1 %123, label %124, label %1, !llvm.loop !10

124:                                              ; preds = %121, %124
  %125 = phi i64 [ %197, %124 ], [ 0, %121 ]
  %126 = getelementptr inbounds [10 x [14 x i8]], ptr @main.boards, i64 0, i64 %125, i64 0
  %127 = load i8, ptr %126, align 2, !tbaa !3
  %128 = icmp eq i8 %127, 0
  %129 = select i1 %128, i32 46, i32 35
  %130 = tail call i32 @putchar(i32 noundef %129) #3
  %131 = getelementptr inbounds [10 x [14 x i8]], ptr @main.boards, i64 0, i64 %125, i64 1
  %132 = load i8, ptr %131, align 1, !tbaa !3
  %133 = icmp eq i8 %132, 0
  %134 = select i1 %133, i32 46, i32 35
  %135 = tail call i32 @putchar(i32 noundef %134) #3
  %136 = getelementptr inbounds [10 x [14 x i8]], ptr @main.boards, i64 0, i64 %125, i64 2
  %137 = load i8, ptr %136, align 2, !tbaa !3
  %138 = icmp eq i8 %137, 0
  %139 = select i1 %138, i32 46, i32 35
  %140 = tail call i32 @putchar(i32 noundef %139) #3
  %141 = getelementptr inbounds [10 x [14 x i8]], ptr @main.boards, i64 0, i64 %125, i64 3
  %142 = load i8, ptr %141, align 1, !tbaa !3
  %143 = icmp eq i8 %142, 0
  %144 = select i1 %143, i32 46, i32 35
  %145 = tail call i32 @putchar(i32 noundef %144) #3
  %146 = getelementptr inbounds [10 x [14 x i8]], ptr @main.boards, i64 0, i64 %125, i64 4
  %147 = load i8, ptr %146, align 2, !tbaa !3
  %148 = icmp eq i8 %147, 0
  %149 = select i1 %148, i32 46, i32 35
  %150 = tail call i32 @putchar(i32 noundef %149) #3
  %151 = getelementptr inbounds [10 x [14 x i8]], ptr @main.boards, i64 0, i64 %125, i64 5
  %152 = load i8, ptr %151, align 1, !tbaa !3
  %153 = icmp eq i8 %152, 0
  %154 = select i1 %153, i32 46, i32 35
  %155 = tail call i32 @putchar(i32 noundef %154) #3
  %156 = getelementptr inbounds [10 x [14 x i8]], ptr @main.boards, i64 0, i64 %125, i64 6
  %157 = load i8, ptr %156, align 2, !tbaa !3
  %158 = icmp eq i8 %157, 0
  %159 = select i1 %158, i32 46, i32 35
  %160 = tail call i32 @putchar(i32 noundef %159) #3
  %161 = getelementptr inbounds [10 x [14 x i8]], ptr @main.boards, i64 0, i64 %125, i64 7
  %162 = load i8, ptr %161, align 1, !tbaa !3
  %163 = icmp eq i8 %162, 0
  %164 = select i1 %163, i32 46, i32 35
  %165 = tail call i32 @putchar(i32 noundef %164) #3
  %166 = getelementptr inbounds [10 x [14 x i8]], ptr @main.boards, i64 0, i64 %125, i64 8
  %167 = load i8, ptr %166, align 2, !tbaa !3
  %168 = icmp eq i8 %167, 0
  %169 = select i1 %168, i32 46, i32 35
  %170 = tail call i32 @putchar(i32 noundef %169) #3
  %171 = getelementptr inbounds [10 x [14 x i8]], ptr @main.boards, i64 0, i64 %125, i64 9
  %172 = load i8, ptr %171, align 1, !tbaa !3
  %173 = icmp eq i8 %172, 0
  %174 = select i1 %173, i32 46, i32 35
  %175 = tail call i32 @putchar(i32 noundef %174) #3
  %176 = getelementptr inbounds [10 x [14 x i8]], ptr @main.boards, i64 0, i64 %125, i64 10
  %177 = load i8, ptr %176, align 2, !tbaa !3
  %178 = icmp eq i8 %177, 0
  %179 = select i1 %178, i32 46, i32 35
  %180 = tail call i32 @putchar(i32 noundef %179) #3
  %181 = getelementptr inbounds [10 x [14 x i8]], ptr @main.boards, i64 0, i64 %125, i64 11
  %182 = load i8, ptr %181, align 1, !tbaa !3
  %183 = icmp eq i8 %182, 0
  %184 = select i1 %183, i32 46, i32 35
  %185 = tail call i32 @putchar(i32 noundef %184) #3
  %186 = getelementptr inbounds [10 x [14 x i8]], ptr @main.boards, i64 0, i64 %125, i64 12
  %187 = load i8, ptr %186, align 2, !tbaa !3
  %188 = icmp eq i8 %187, 0
  %189 = select i1 %188, i32 46, i32 35
  %190 = tail call i32 @putchar(i32 noundef %189) #3
  %191 = getelementptr inbounds [10 x [14 x i8]], ptr @main.boards, i64 0, i64 %125, i64 13
  %192 = load i8, ptr %191, align 1, !tbaa !3
  %193 = icmp eq i8 %192, 0
  %194 = select i1 %193, i32 46, i32 35
  %195 = tail call i32 @putchar(i32 noundef %194) #3
  %196 = tail call i32 @putchar(i32 noundef 10) #3
  %197 = add nuw nsw i64 %125, 1
  %198 = icmp eq i64 %197, 10
  br i1 %198, label %199, label %124, !llvm.loop !11

199:                                              ; preds = %124
  ret i32 %118
}

; Function Attrs: mustprogress nocallback nofree nounwind willreturn memory(argmem: write)
declare void @llvm.memset.p0.i64(ptr nocapture writeonly, i8, i64, i1 immarg) #1

; Function Attrs: nofree nounwind
declare dso_local noundef i32 @putchar(i32 noundef) local_unnamed_addr #2

attributes #0 = { nofree nounwind uwtable "min-legal-vector-width"="0" "no-builtin-calloc" "no-trapping-math"="true" "stack-protector-buffer-size"="8" "target-cpu"="x86-64" "target-features"="+cmov,+cx8,+fxsr,-aes,-avx,-avx10.1-256,-avx10.1-512,-avx2,-avx512bf16,-avx512bitalg,-avx512bw,-avx512cd,-avx512dq,-avx512f,-avx512fp16,-avx512ifma,-avx512vbmi,-avx512vbmi2,-avx512vl,-avx512vnni,-avx512vp2intersect,-avx512vpopcntdq,-avxifma,-avxneconvert,-avxvnni,-avxvnniint16,-avxvnniint8,-f16c,-fma,-fma4,-gfni,-kl,-mmx,-pclmul,-sha,-sha512,-sm3,-sm4,-sse,-sse2,-sse3,-sse4.1,-sse4.2,-sse4a,-ssse3,-vaes,-vpclmulqdq,-widekl,-x87,-xop" "tune-cpu"="generic" }
attributes #1 = { mustprogress nocallback nofree nounwind willreturn memory(argmem: write) }
attributes #2 = { nofree nounwind "no-builtin-calloc" "no-trapping-math"="true" "stack-protector-buffer-size"="8" "target-cpu"="x86-64" "target-features"="+cmov,+cx8,+fxsr,-aes,-avx,-avx10.1-256,-avx10.1-512,-avx2,-avx512bf16,-avx512bitalg,-avx512bw,-avx512cd,-avx512dq,-avx512f,-avx512fp16,-avx512ifma,-avx512vbmi,-avx512vbmi2,-avx512vl,-avx512vnni,-avx512vp2intersect,-avx512vpopcntdq,-avxifma,-avxneconvert,-avxvnni,-avxvnniint16,-avxvnniint8,-f16c,-fma,-fma4,-gfni,-kl,-mmx,-pclmul,-sha,-sha512,-sm3,-sm4,-sse,-sse2,-sse3,-sse4.1,-sse4.2,-sse4a,-ssse3,-vaes,-vpclmulqdq,-widekl,-x87,-xop" "tune-cpu"="generic" }
attributes #3 = { "no-builtin-calloc" }

!llvm.module.flags = !{!0, !1}
!llvm.ident = !{!2}

!0 = !{i32 1, !"wchar_size", i32 4}
!1 = !{i32 7, !"uwtable", i32 2}
!2 = !{!"Debian clang version 19.1.7 (3~deb12u1)"}
!3 = !{!4, !4, i64 0}
!4 = !{!"omnipotent char", !5, i64 0}
!5 = !{!"Simple C/C++ TBAA"}
!6 = distinct !{!6, !7}
!7 = !{!"llvm.loop.mustprogress"}
!8 = distinct !{!8, !7, !9}
!9 = !{!"llvm.loop.peeled.count", i32 1}
!10 = distinct !{!10, !7}
!11 = distinct !{!11, !7}
