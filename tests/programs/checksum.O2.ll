; ModuleID = 'checksum.c'
source_filename = "checksum.c"
target datalayout = "e-m:e-p270:32:32-p271:32:32-p272:64:64-i64:64-i128:128-f80:128-n8:16:32:64-S128"
target triple = "x86_64-pc-linux-gnu"

@.str = private unnamed_addr constant [16 x i8] c"%08x %08x %04x\0A\00", align 1
@.str.1 = private unnamed_addr constant [16 x i8] c"%08X %08X %04X\0A\00", align 1
@table = internal unnamed_addr global [256 x i32] zeroinitializer, align 16

; Function Attrs: nofree nounwind uwtable
define dso_local range(i32 0, 256) i32 @main() local_unnamed_addr #0 {
  %1 = alloca [1000 x i8], align 16
  call void @llvm.lifetime.start.p0(i64 1000, ptr nonnull %1) #3
  br label %2

2:                                                ; preds = %2, %0
  %3 = phi i64 [ 0, %0 ], [ %46, %2 ]
  %4 = trunc nuw nsw i64 %3 to i32
  %5 = and i32 %4, 1
  %6 = icmp eq i32 %5, 0
  %7 = lshr i32 %4, 1
  %8 = xor i32 %7, -306674912
  %9 = select i1 %6, i32 %7, i32 %8
  %10 = and i32 %9, 1
  %11 = icmp eq i32 %10, 0
  %12 = lshr i32 %9, 1
  %13 = xor i32 %12, -306674912
  %14 = select i1 %11, i32 %12, i32 %13
  %15 = and i32 %14, 1
  %16 = icmp eq i32 %15, 0
  %17 = lshr i32 %14, 1
  %18 = xor i32 %17, -306674912
  %19 = select i1 %16, i32 %17, i32 %18
  %20 = and i32 %19, 1
  %21 = icmp eq i32 %20, 0
  %22 = lshr i32 %19, 1
  %23 = xor i32 %22, -306674912
  %24 = select i1 %21, i32 %22, i32 %23
  %25 = and i32 %24, 1
  %26 = icmp eq i32 %25, 0
  %27 = lshr i32 %24, 1
  %28 = xor i32 %27, -306674912
  %29 = select i1 %26, i32 %27, i32 %28
  %30 = and i32 %29, 1
  %31 = icmp eq i32 %30, 0
  %32 = lshr i32 %29, 1
  %33 = xor i32 %32, -306674912
  %34 = select i1 %31, i32 %32, i32 %33
  %35 = and i32 %34, 1
  %36 = icmp eq i32 %35, 0
  %37 = lshr i32 %34, 1
  %38 = xor i32 %37, -306674912
  %39 = select i1 %36, i32 %37, i32 %38
  %40 = and i32 %39, 1
  %41 = icmp eq i32 %40, 0
  %42 = lshr i32 %39, 1
  %43 = xor i32 %42, -306674912
  %44 = select i1 %41, i32 %42, i32 %43
  %45 = getelementptr inbounds [256 x i32], ptr @table, i64 0, i64 %3
  store i32 %44, ptr %45, align 4, !tbaa !3
  %46 = add nuw nsw i64 %3, 1
  %47 = icmp eq i64 %46, 256
  br i1 %47, label %132, label %2, !llvm.loop !7

48:                                               ; preds = %48, %160
  %49 = phi i32 [ -1, %160 ], [ %70, %48 ]
  %50 = phi i64 [ 1000, %160 ], [ %61, %48 ]
  %51 = phi ptr [ %1, %160 ], [ %62, %48 ]
  %52 = getelementptr inbounds i8, ptr %51, i64 1
  %53 = load i8, ptr %51, align 1, !tbaa !9
  %54 = trunc i32 %49 to i8
  %55 = xor i8 %53, %54
  %56 = zext i8 %55 to i64
  %57 = getelementptr inbounds [256 x i32], ptr @table, i64 0, i64 %56
  %58 = load i32, ptr %57, align 4, !tbaa !3
  %59 = lshr i32 %49, 8
  %60 = xor i32 %58, %59
  %61 = add nsw i64 %50, -2
  %62 = getelementptr inbounds i8, ptr %51, i64 2
  %63 = load i8, ptr %52, align 1, !tbaa !9
  %64 = trunc i32 %60 to i8
  %65 = xor i8 %63, %64
  %66 = zext i8 %65 to i64
  %67 = getelementptr inbounds [256 x i32], ptr @table, i64 0, i64 %66
  %68 = load i32, ptr %67, align 4, !tbaa !3
  %69 = lshr i32 %60, 8
  %70 = xor i32 %68, %69
  %71 = icmp eq i64 %61, 0
  br i1 %71, label %72, label %48, !llvm.loop !10

72:                                               ; preds = %48, %72
  %73 = phi i64 [ %91, %72 ], [ 0, %48 ]
  %74 = phi i32 [ %90, %72 ], [ 0, %48 ]
  %75 = phi i32 [ %88, %72 ], [ 1, %48 ]
  %76 = getelementptr inbounds i8, ptr %1, i64 %73
  %77 = load i8, ptr %76, align 2, !tbaa !9
  %78 = zext i8 %77 to i32
  %79 = add nuw nsw i32 %75, %78
  %80 = urem i32 %79, 65521
  %81 = add nuw nsw i32 %80, %74
  %82 = urem i32 %81, 65521
  %83 = or disjoint i64 %73, 1
  %84 = getelementptr inbounds i8, ptr %1, i64 %83
  %85 = load i8, ptr %84, align 1, !tbaa !9
  %86 = zext i8 %85 to i32
  %87 = add nuw nsw i32 %80, %86
  %88 = urem i32 %87, 65521
  %89 = add nuw nsw i32 %88, %82
  %90 = urem i32 %89, 65521
  %91 = add nuw nsw i64 %73, 2
  %92 = icmp eq i64 %91, 1000
  br i1 %92, label %93, label %72, !llvm.loop !11

93:                                               ; preds = %72, %93
  %94 = phi i64 [ %120, %93 ], [ 0, %72 ]
  %95 = phi i16 [ %119, %93 ], [ 0, %72 ]
  %96 = phi i16 [ %114, %93 ], [ 0, %72 ]
  %97 = getelementptr inbounds i8, ptr %1, i64 %94
  %98 = load i8, ptr %97, align 2, !tbaa !9
  %99 = freeze i8 %98
  %100 = zext i8 %99 to i16
  %101 = add nuw nsw i16 %96, %100
  %102 = urem i16 %101, 255
  %103 = and i16 %95, 255
  %104 = add nuw nsw i16 %102, %103
  %105 = icmp ugt i16 %104, 254
  %106 = zext i1 %105 to i16
  %107 = add nuw nsw i16 %104, %106
  %108 = or disjoint i64 %94, 1
  %109 = getelementptr inbounds i8, ptr %1, i64 %108
  %110 = load i8, ptr %109, align 1, !tbaa !9
  %111 = freeze i8 %110
  %112 = zext i8 %111 to i16
  %113 = add nuw nsw i16 %102, %112
  %114 = urem i16 %113, 255
  %115 = and i16 %107, 255
  %116 = add nuw nsw i16 %114, %115
  %117 = icmp ugt i16 %116, 254
  %118 = zext i1 %117 to i16
  %119 = add nuw nsw i16 %116, %118
  %120 = add nuw nsw i64 %94, 2
  %121 = icmp eq i64 %120, 1000
  br i1 %121, label %122, label %93, !llvm.loop !12

122:                                              ; preds = %93
  %123 = shl nuw i32 %90, 16
  %124 = or disjoint i32 %123, %88
  %125 = xor i32 %70, -1
  %126 = shl i16 %119, 8
  %127 = or disjoint i16 %126, %114
  %128 = zext i16 %127 to i32
  %129 = tail call i32 (ptr, ...) @printf(ptr noundef nonnull dereferenceable(1) @.str.1, i32 noundef %125, i32 noundef %124, i32 noundef %128) #4
  %130 = xor i32 %88, %125
  %131 = and i32 %130, 255
  call void @llvm.lifetime.end.p0(i64 1000, ptr nonnull %1) #3
  ret i32 %131

132:                                              ; preds = %2, %132
  %133 = phi i64 [ %158, %132 ], [ 0, %2 ]
  %134 = mul nuw nsw i64 %133, %133
  %135 = lshr i64 %134, 3
  %136 = trunc i64 %135 to i8
  %137 = getelementptr inbounds [1000 x i8], ptr %1, i64 0, i64 %133
  store i8 %136, ptr %137, align 1, !tbaa !9
  %138 = add nuw nsw i64 %133, 1
  %139 = mul nuw nsw i64 %138, %138
  %140 = lshr i64 %139, 3
  %141 = trunc i64 %140 to i8
  %142 = getelementptr inbounds [1000 x i8], ptr %1, i64 0, i64 %138
  store i8 %141, ptr %142, align 1, !tbaa !9
  %143 = add nuw nsw i64 %133, 2
  %144 = mul nuw nsw i64 %143, %143
  %145 = lshr i64 %144, 3
  %146 = trunc i64 %145 to i8
  %147 = getelementptr inbounds [1000 x i8], ptr %1, i64 0, i64 %143
  store i8 %146, ptr %147, align 1, !tbaa !9
  %148 = add nuw nsw i64 %133, 3
  %149 = mul nuw nsw i64 %148, %148
  %150 = lshr i64 %149, 3
  %151 = trunc i64 %150 to i8
  %152 = getelementptr inbounds [1000 x i8], ptr %1, i64 0, i64 %148
  store i8 %151, ptr %152, align 1, !tbaa !9
  %153 = add nuw nsw i64 %133, 4
  %154 = mul nuw nsw i64 %153, %153
  %155 = lshr i64 %154, 3
  %156 = trunc i64 %155 to i8
  %157 = getelementptr inbounds [1000 x i8], ptr %1, i64 0, i64 %153
  store i8 %156, ptr %157, align 1, !tbaa !9
  %158 = add nuw nsw i64 %133, 5
  %159 = icmp eq i64 %158, 1000
  br i1 %159, label %160, label %132, !llvm.loop !13

160:                                              ; preds = %132
  %161 = load i32, ptr getelementptr inbounds (i8, ptr @table, i64 824), align 8, !tbaa !3
  %162 = and i32 %161, 255
  %163 = xor i32 %162, 205
  %164 = zext nneg i32 %163 to i64
  %165 = getelementptr inbounds [256 x i32], ptr @table, i64 0, i64 %164
  %166 = load i32, ptr %165, align 4, !tbaa !3
  %167 = lshr i32 %161, 8
  %168 = xor i32 %167, %166
  %169 = and i32 %168, 255
  %170 = xor i32 %169, 204
  %171 = zext nneg i32 %170 to i64
  %172 = getelementptr inbounds [256 x i32], ptr @table, i64 0, i64 %171
  %173 = load i32, ptr %172, align 4, !tbaa !3
  %174 = lshr i32 %168, 8
  %175 = xor i32 %174, %173
  %176 = and i32 %175, 255
  %177 = xor i32 %176, 203
  %178 = zext nneg i32 %177 to i64
  %179 = getelementptr inbounds [256 x i32], ptr @table, i64 0, i64 %178
  %180 = load i32, ptr %179, align 4, !tbaa !3
  %181 = lshr i32 %175, 8
  %182 = xor i32 %180, %181
  %183 = and i32 %182, 255
  %184 = xor i32 %183, 53
  %185 = zext nneg i32 %184 to i64
  %186 = getelementptr inbounds [256 x i32], ptr @table, i64 0, i64 %185
  %187 = load i32, ptr %186, align 4, !tbaa !3
  %188 = lshr i32 %182, 8
  %189 = xor i32 %187, %188
  %190 = and i32 %189, 255
  %191 = xor i32 %190, 54
  %192 = zext nneg i32 %191 to i64
  %193 = getelementptr inbounds [256 x i32], ptr @table, i64 0, i64 %192
  %194 = load i32, ptr %193, align 4, !tbaa !3
  %195 = lshr i32 %189, 8
  %196 = xor i32 %194, %195
  %197 = and i32 %196, 255
  %198 = xor i32 %197, 55
  %199 = zext nneg i32 %198 to i64
  %200 = getelementptr inbounds [256 x i32], ptr @table, i64 0, i64 %199
  %201 = load i32, ptr %200, align 4, !tbaa !3
  %202 = lshr i32 %196, 8
  %203 = xor i32 %201, %202
  %204 = and i32 %203, 255
  %205 = xor i32 %204, 56
  %206 = zext nneg i32 %205 to i64
  %207 = getelementptr inbounds [256 x i32], ptr @table, i64 0, i64 %206
  %208 = load i32, ptr %207, align 4, !tbaa !3
  %209 = lshr i32 %203, 8
  %210 = xor i32 %208, %209
  %211 = and i32 %210, 255
  %212 = xor i32 %211, 57
  %213 = zext nneg i32 %212 to i64
  %214 = getelementptr inbounds [256 x i32], ptr @table, i64 0, i64 %213
  %215 = load i32, ptr %214, align 4, !tbaa !3
  %216 = lshr i32 %210, 8
  %217 = xor i32 %215, %216
  %218 = xor i32 %217, -1
  %219 = tail call i32 (ptr, ...) @printf(ptr noundef nonnull dereferenceable(1) @.str, i32 noundef %218, i32 noundef 152961502, i32 noundef 7902) #4
  br label %48
}

; Function Attrs: mustprogress nocallback nofree nosync nounwind willreturn memory(argmem: readwrite)
declare void @llvm.lifetime.start.p0(i64 immarg, ptr nocapture) #1

; Function Attrs: mustprogress nocallback nofree nosync nounwind willreturn memory(argmem: readwrite)
declare void @llvm.lifetime.end.p0(i64 immarg, ptr nocapture) #1

; Function Attrs: nofree nounwind
declare dso_local noundef i32 @printf(ptr nocapture noundef readonly, ...) local_unnamed_addr #2

attributes #0 = { nofree nounwind uwtable "min-legal-vector-width"="0" "no-builtin-calloc" "no-trapping-math"="true" "stack-protector-buffer-size"="8" "target-cpu"="x86-64" "target-features"="+cmov,+cx8,+fxsr,-aes,-avx,-avx10.1-256,-avx10.1-512,-avx2,-avx512bf16,-avx512bitalg,-avx512bw,-avx512cd,-avx512dq,-avx512f,-avx512fp16,-avx512ifma,-avx512vbmi,-avx512vbmi2,-avx512vl,-avx512vnni,-avx512vp2intersect,-avx512vpopcntdq,-avxifma,-avxneconvert,-avxvnni,-avxvnniint16,-avxvnniint8,-f16c,-fma,-fma4,-gfni,-kl,-mmx,-pclmul,-sha,-sha512,-sm3,-sm4,-sse,-sse2,-sse3,-sse4.1,-sse4.2,-sse4a,-ssse3,-vaes,-vpclmulqdq,-widekl,-x87,-xop" "tune-cpu"="generic" }
attributes #1 = { mustprogress nocallback nofree nosync nounwind willreturn memory(argmem: readwrite) }
attributes #2 = { nofree nounwind "no-builtin-calloc" "no-trapping-math"="true" "stack-protector-buffer-size"="8" "target-cpu"="x86-64" "target-features"="+cmov,+cx8,+fxsr,-aes,-avx,-avx10.1-256,-avx10.1-512,-avx2,-avx512bf16,-avx512bitalg,-avx512bw,-avx512cd,-avx512dq,-avx512f,-avx512fp16,-avx512ifma,-avx512vbmi,-avx512vbmi2,-avx512vl,-avx512vnni,-avx512vp2intersect,-avx512vpopcntdq,-avxifma,-avxneconvert,-avxvnni,-avxvnniint16,-avxvnniint8,-f16c,-fma,-fma4,-gfni,-kl,-mmx,-pclmul,-sha,-sha512,-sm3,-sm4,-sse,-sse2,-sse3,-sse4.1,-sse4.2,-sse4a,-ssse3,-vaes,-vpclmulqdq,-widekl,-x87,-xop" "tune-cpu"="generic" }
attributes #3 = { nounwind }
attributes #4 = { "no-builtin-calloc" }

!llvm.module.flags = !{!0, !1}
!llvm.ident = !{!2}

!0 = !{i32 1, !"wchar_size", i32 4}
!1 = !{i32 7, !"uwtable", i32 2}
!2 = !{!"Debian clang version 19.1.7 (3~deb12u1)"}
!3 = !{!4, !4, i64 0}
!4 = !{!"int", !5, i64 0}
!5 = !{!"omnipotent char", !6, i64 0}
!6 = !{!"Simple C/C++ TBAA"}
!7 = distinct !{!7, !8}
!8 = !{!"llvm.loop.mustprogress"}
!9 = !{!5, !5, i64 0}
!10 = distinct !{!10, !8}
!11 = distinct !{!11, !8}
!12 = distinct !{!12, !8}
!13 = distinct !{!13, !8}
