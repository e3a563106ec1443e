; ModuleID = 'sets.c'
source_filename = "sets.c"
target datalayout = "e-m:e-p270:32:32-p271:32:32-p272:64:64-i64:64-i128:128-f80:128-n8:16:32:64-S128"
target triple = "x86_64-pc-linux-gnu"

%struct.Set = type { [16 x i64] }

@.str = private unnamed_addr constant [16 x i8] c"%d %d %d %d %d\0A\00", align 1
@.str.1 = private unnamed_addr constant [5 x i8] c"%d%c\00", align 1

; Function Attrs: nofree nounwind uwtable
define dso_local i32 @main() local_unnamed_addr #0 {
  %1 = alloca %struct.Set, align 8
  %2 = alloca %struct.Set, align 8
  %3 = alloca %struct.Set, align 8
  %4 = alloca %struct.Set, align 8
  %5 = alloca %struct.Set, align 8
  call void @llvm.lifetime.start.p0(i64 128, ptr nonnull %1) #5
  call void @llvm.lifetime.start.p0(i64 128, ptr nonnull %2) #5
  call void @llvm.lifetime.start.p0(i64 128, ptr nonnull %3) #5
  %6 = getelementptr inbounds i8, ptr %1, i64 8
  call void @llvm.memset.p0.i64(ptr noundef nonnull align 8 dereferenceable(128) %6, i8 -1, i64 120, i1 false)
  call void @llvm.memset.p0.i64(ptr noundef nonnull align 8 dereferenceable(128) %2, i8 0, i64 128, i1 false)
  call void @llvm.memset.p0.i64(ptr noundef nonnull align 8 dereferenceable(128) %3, i8 0, i64 128, i1 false)
  store i64 -4, ptr %1, align 8, !tbaa !3
  br label %7

7:                                                ; preds = %0, %18
  %8 = phi i64 [ 2, %0 ], [ %19, %18 ]
  %9 = phi i32 [ 4, %0 ], [ %21, %18 ]
  %10 = trunc nuw nsw i64 %8 to i32
  %11 = lshr i64 %8, 6
  %12 = and i64 %11, 67108863
  %13 = getelementptr inbounds [16 x i64], ptr %1, i64 0, i64 %12
  %14 = shl nuw i64 1, %8
  %15 = load i64, ptr %13, align 8, !tbaa !3
  %16 = and i64 %15, %14
  %17 = icmp eq i64 %16, 0
  br i1 %17, label %18, label %23

18:                                               ; preds = %23, %7
  %19 = add nuw nsw i64 %8, 1
  %20 = trunc nuw nsw i64 %19 to i32
  %21 = mul i32 %20, %20
  %22 = icmp eq i64 %19, 32
  br i1 %22, label %109, label %7, !llvm.loop !7

23:                                               ; preds = %7, %23
  %24 = phi i32 [ %34, %23 ], [ %9, %7 ]
  %25 = and i32 %24, 63
  %26 = zext nneg i32 %25 to i64
  %27 = shl nuw i64 1, %26
  %28 = xor i64 %27, -1
  %29 = lshr i32 %24, 6
  %30 = zext nneg i32 %29 to i64
  %31 = getelementptr inbounds [16 x i64], ptr %1, i64 0, i64 %30
  %32 = load i64, ptr %31, align 8, !tbaa !3
  %33 = and i64 %32, %28
  store i64 %33, ptr %31, align 8, !tbaa !3
  %34 = add nuw nsw i32 %24, %10
  %35 = load i64, ptr %13, align 8, !tbaa !3
  %36 = and i64 %35, %14
  %37 = icmp ne i64 %36, 0
  %38 = icmp ult i32 %34, 1024
  %39 = and i1 %37, %38
  br i1 %39, label %23, label %18, !llvm.loop !9

40:                                               ; preds = %109
  %41 = load i64, ptr %2, align 8, !tbaa !3
  %42 = icmp eq i64 %41, 0
  br i1 %42, label %43, label %103

43:                                               ; preds = %40
  %44 = getelementptr inbounds i8, ptr %2, i64 8
  %45 = load i64, ptr %44, align 8, !tbaa !3
  %46 = icmp eq i64 %45, 0
  br i1 %46, label %47, label %103

47:                                               ; preds = %43
  %48 = getelementptr inbounds i8, ptr %2, i64 16
  %49 = load i64, ptr %48, align 8, !tbaa !3
  %50 = icmp eq i64 %49, 0
  br i1 %50, label %51, label %103

51:                                               ; preds = %47
  %52 = getelementptr inbounds i8, ptr %2, i64 24
  %53 = load i64, ptr %52, align 8, !tbaa !3
  %54 = icmp eq i64 %53, 0
  br i1 %54, label %55, label %103

55:                                               ; preds = %51
  %56 = getelementptr inbounds i8, ptr %2, i64 32
  %57 = load i64, ptr %56, align 8, !tbaa !3
  %58 = icmp eq i64 %57, 0
  br i1 %58, label %59, label %103

59:                                               ; preds = %55
  %60 = getelementptr inbounds i8, ptr %2, i64 40
  %61 = load i64, ptr %60, align 8, !tbaa !3
  %62 = icmp eq i64 %61, 0
  br i1 %62, label %63, label %103

63:                                               ; preds = %59
  %64 = getelementptr inbounds i8, ptr %2, i64 48
  %65 = load i64, ptr %64, align 8, !tbaa !3
  %66 = icmp eq i64 %65, 0
  br i1 %66, label %67, label %103

67:                                               ; preds = %63
  %68 = getelementptr inbounds i8, ptr %2, i64 56
  %69 = load i64, ptr %68, align 8, !tbaa !3
  %70 = icmp eq i64 %69, 0
  br i1 %70, label %71, label %103

71:                                               ; preds = %67
  %72 = getelementptr inbounds i8, ptr %2, i64 64
  %73 = load i64, ptr %72, align 8, !tbaa !3
  %74 = icmp eq i64 %73, 0
  br i1 %74, label %75, label %103

75:                                               ; preds = %71
  %76 = getelementptr inbounds i8, ptr %2, i64 72
  %77 = load i64, ptr %76, align 8, !tbaa !3
  %78 = icmp eq i64 %77, 0
  br i1 %78, label %79, label %103

79:                                               ; preds = %75
  %80 = getelementptr inbounds i8, ptr %2, i64 80
  %81 = load i64, ptr %80, align 8, !tbaa !3
  %82 = icmp eq i64 %81, 0
  br i1 %82, label %83, label %103

83:                                               ; preds = %79
  %84 = getelementptr inbounds i8, ptr %2, i64 88
  %85 = load i64, ptr %84, align 8, !tbaa !3
  %86 = icmp eq i64 %85, 0
  br i1 %86, label %87, label %103

87:                                               ; preds = %83
  %88 = getelementptr inbounds i8, ptr %2, i64 96
  %89 = load i64, ptr %88, align 8, !tbaa !3
  %90 = icmp eq i64 %89, 0
  br i1 %90, label %91, label %103

91:                                               ; preds = %87
  %92 = getelementptr inbounds i8, ptr %2, i64 104
  %93 = load i64, ptr %92, align 8, !tbaa !3
  %94 = icmp eq i64 %93, 0
  br i1 %94, label %95, label %103

95:                                               ; preds = %91
  %96 = getelementptr inbounds i8, ptr %2, i64 112
  %97 = load i64, ptr %96, align 8, !tbaa !3
  %98 = icmp eq i64 %97, 0
  br i1 %98, label %99, label %103

99:                                               ; preds = %95
  %100 = getelementptr inbounds i8, ptr %2, i64 120
  %101 = load i64, ptr %100, align 8, !tbaa !3
  %102 = icmp eq i64 %101, 0
  br i1 %102, label %138, label %103

103:                                              ; preds = %40, %99, %95, %91, %87, %83, %79, %75, %71, %67, %63, %59, %55, %51, %47, %43
  %104 = phi i32 [ 0, %40 ], [ 64, %43 ], [ 128, %47 ], [ 192, %51 ], [ 256, %55 ], [ 320, %59 ], [ 384, %63 ], [ 448, %67 ], [ 512, %71 ], [ 576, %75 ], [ 640, %79 ], [ 704, %83 ], [ 768, %87 ], [ 832, %91 ], [ 896, %95 ], [ 960, %99 ]
  %105 = phi i64 [ %41, %40 ], [ %45, %43 ], [ %49, %47 ], [ %53, %51 ], [ %57, %55 ], [ %61, %59 ], [ %65, %63 ], [ %69, %67 ], [ %73, %71 ], [ %77, %75 ], [ %81, %79 ], [ %85, %83 ], [ %89, %87 ], [ %93, %91 ], [ %97, %95 ], [ %101, %99 ]
  %106 = tail call range(i64 0, 65) i64 @llvm.cttz.i64(i64 %105, i1 true)
  %107 = trunc nuw nsw i64 %106 to i32
  %108 = or disjoint i32 %104, %107
  br label %133

109:                                              ; preds = %18, %109
  %110 = phi i32 [ %131, %109 ], [ 0, %18 ]
  %111 = phi i32 [ %130, %109 ], [ 0, %18 ]
  %112 = and i32 %110, 63
  %113 = zext nneg i32 %112 to i64
  %114 = shl nuw i64 1, %113
  %115 = lshr i32 %110, 6
  %116 = zext nneg i32 %115 to i64
  %117 = getelementptr inbounds [16 x i64], ptr %2, i64 0, i64 %116
  %118 = load i64, ptr %117, align 8, !tbaa !3
  %119 = or i64 %118, %114
  store i64 %119, ptr %117, align 8, !tbaa !3
  %120 = or disjoint i32 %111, 1
  %121 = mul i32 %120, %120
  %122 = and i32 %121, 63
  %123 = zext nneg i32 %122 to i64
  %124 = shl nuw i64 1, %123
  %125 = lshr i32 %121, 6
  %126 = zext nneg i32 %125 to i64
  %127 = getelementptr inbounds [16 x i64], ptr %2, i64 0, i64 %126
  %128 = load i64, ptr %127, align 8, !tbaa !3
  %129 = or i64 %128, %124
  store i64 %129, ptr %127, align 8, !tbaa !3
  %130 = add nuw nsw i32 %111, 2
  %131 = mul i32 %130, %130
  %132 = icmp eq i32 %130, 32
  br i1 %132, label %40, label %109, !llvm.loop !10

133:                                              ; preds = %103, %382
  %134 = phi i32 [ %388, %382 ], [ %108, %103 ]
  %135 = icmp slt i32 %134, 512
  br i1 %135, label %136, label %356

136:                                              ; preds = %133
  %137 = shl nsw i32 %134, 1
  br label %390

138:                                              ; preds = %369, %356, %382, %377, %99
  call void @llvm.lifetime.start.p0(i64 128, ptr nonnull %4) #5
  call void @llvm.lifetime.start.p0(i64 128, ptr nonnull %5) #5
  %139 = load i64, ptr %1, align 8, !tbaa !3
  %140 = load i64, ptr %3, align 8, !tbaa !3
  %141 = and i64 %140, %139
  %142 = getelementptr inbounds i8, ptr %1, i64 8
  %143 = load i64, ptr %142, align 8, !tbaa !3
  %144 = getelementptr inbounds i8, ptr %3, i64 8
  %145 = load i64, ptr %144, align 8, !tbaa !3
  %146 = and i64 %145, %143
  %147 = getelementptr inbounds i8, ptr %4, i64 8
  %148 = getelementptr inbounds i8, ptr %1, i64 16
  %149 = load i64, ptr %148, align 8, !tbaa !3
  %150 = getelementptr inbounds i8, ptr %3, i64 16
  %151 = load i64, ptr %150, align 8, !tbaa !3
  %152 = and i64 %151, %149
  %153 = getelementptr inbounds i8, ptr %4, i64 16
  %154 = getelementptr inbounds i8, ptr %1, i64 24
  %155 = load i64, ptr %154, align 8, !tbaa !3
  %156 = getelementptr inbounds i8, ptr %3, i64 24
  %157 = load i64, ptr %156, align 8, !tbaa !3
  %158 = and i64 %157, %155
  %159 = getelementptr inbounds i8, ptr %4, i64 24
  %160 = getelementptr inbounds i8, ptr %1, i64 32
  %161 = load i64, ptr %160, align 8, !tbaa !3
  %162 = getelementptr inbounds i8, ptr %3, i64 32
  %163 = load i64, ptr %162, align 8, !tbaa !3
  %164 = and i64 %163, %161
  %165 = getelementptr inbounds i8, ptr %4, i64 32
  %166 = getelementptr inbounds i8, ptr %1, i64 40
  %167 = load i64, ptr %166, align 8, !tbaa !3
  %168 = getelementptr inbounds i8, ptr %3, i64 40
  %169 = load i64, ptr %168, align 8, !tbaa !3
  %170 = and i64 %169, %167
  %171 = getelementptr inbounds i8, ptr %4, i64 40
  %172 = getelementptr inbounds i8, ptr %1, i64 48
  %173 = load i64, ptr %172, align 8, !tbaa !3
  %174 = getelementptr inbounds i8, ptr %3, i64 48
  %175 = load i64, ptr %174, align 8, !tbaa !3
  %176 = and i64 %175, %173
  %177 = getelementptr inbounds i8, ptr %4, i64 48
  %178 = getelementptr inbounds i8, ptr %1, i64 56
  %179 = load i64, ptr %178, align 8, !tbaa !3
  %180 = getelementptr inbounds i8, ptr %3, i64 56
  %181 = load i64, ptr %180, align 8, !tbaa !3
  %182 = and i64 %181, %179
  %183 = getelementptr inbounds i8, ptr %4, i64 56
  %184 = getelementptr inbounds i8, ptr %1, i64 64
  %185 = load i64, ptr %184, align 8, !tbaa !3
  %186 = getelementptr inbounds i8, ptr %3, i64 64
  %187 = load i64, ptr %186, align 8, !tbaa !3
  %188 = and i64 %187, %185
  %189 = getelementptr inbounds i8, ptr %4, i64 64
  %190 = getelementptr inbounds i8, ptr %1, i64 72
  %191 = load i64, ptr %190, align 8, !tbaa !3
  %192 = getelementptr inbounds i8, ptr %3, i64 72
  %193 = load i64, ptr %192, align 8, !tbaa !3
  %194 = and i64 %193, %191
  %195 = getelementptr inbounds i8, ptr %4, i64 72
  %196 = getelementptr inbounds i8, ptr %1, i64 80
  %197 = load i64, ptr %196, align 8, !tbaa !3
  %198 = getelementptr inbounds i8, ptr %3, i64 80
  %199 = load i64, ptr %198, align 8, !tbaa !3
  %200 = and i64 %199, %197
  %201 = getelementptr inbounds i8, ptr %4, i64 80
  %202 = getelementptr inbounds i8, ptr %1, i64 88
  %203 = load i64, ptr %202, align 8, !tbaa !3
  %204 = getelementptr inbounds i8, ptr %3, i64 88
  %205 = load i64, ptr %204, align 8, !tbaa !3
  %206 = and i64 %205, %203
  %207 = getelementptr inbounds i8, ptr %4, i64 88
  %208 = getelementptr inbounds i8, ptr %1, i64 96
  %209 = load i64, ptr %208, align 8, !tbaa !3
  %210 = getelementptr inbounds i8, ptr %3, i64 96
  %211 = load i64, ptr %210, align 8, !tbaa !3
  %212 = and i64 %211, %209
  %213 = getelementptr inbounds i8, ptr %4, i64 96
  %214 = getelementptr inbounds i8, ptr %1, i64 104
  %215 = load i64, ptr %214, align 8, !tbaa !3
  %216 = getelementptr inbounds i8, ptr %3, i64 104
  %217 = load i64, ptr %216, align 8, !tbaa !3
  %218 = and i64 %217, %215
  %219 = getelementptr inbounds i8, ptr %4, i64 104
  %220 = getelementptr inbounds i8, ptr %1, i64 112
  %221 = load i64, ptr %220, align 8, !tbaa !3
  %222 = getelementptr inbounds i8, ptr %3, i64 112
  %223 = load i64, ptr %222, align 8, !tbaa !3
  %224 = and i64 %223, %221
  %225 = getelementptr inbounds i8, ptr %4, i64 112
  %226 = getelementptr inbounds i8, ptr %1, i64 120
  %227 = load i64, ptr %226, align 8, !tbaa !3
  %228 = getelementptr inbounds i8, ptr %3, i64 120
  %229 = load i64, ptr %228, align 8, !tbaa !3
  %230 = and i64 %229, %227
  %231 = getelementptr inbounds i8, ptr %4, i64 120
  store i64 %141, ptr %4, align 8, !tbaa !3
  store i64 %146, ptr %147, align 8, !tbaa !3
  store i64 %152, ptr %153, align 8, !tbaa !3
  store i64 %158, ptr %159, align 8, !tbaa !3
  store i64 %164, ptr %165, align 8, !tbaa !3
  store i64 %170, ptr %171, align 8, !tbaa !3
  store i64 %176, ptr %177, align 8, !tbaa !3
  store i64 %182, ptr %183, align 8, !tbaa !3
  store i64 %188, ptr %189, align 8, !tbaa !3
  store i64 %194, ptr %195, align 8, !tbaa !3
  store i64 %200, ptr %201, align 8, !tbaa !3
  store i64 %206, ptr %207, align 8, !tbaa !3
  store i64 %212, ptr %213, align 8, !tbaa !3
  store i64 %218, ptr %219, align 8, !tbaa !3
  store i64 %224, ptr %225, align 8, !tbaa !3
  store i64 %230, ptr %231, align 8, !tbaa !3
  %232 = or i64 %139, %41
  %233 = getelementptr inbounds i8, ptr %2, i64 8
  %234 = load i64, ptr %233, align 8, !tbaa !3
  %235 = or i64 %234, %143
  %236 = getelementptr inbounds i8, ptr %5, i64 8
  %237 = getelementptr inbounds i8, ptr %2, i64 16
  %238 = load i64, ptr %237, align 8, !tbaa !3
  %239 = or i64 %238, %149
  %240 = getelementptr inbounds i8, ptr %5, i64 16
  %241 = getelementptr inbounds i8, ptr %2, i64 24
  %242 = load i64, ptr %241, align 8, !tbaa !3
  %243 = or i64 %242, %155
  %244 = getelementptr inbounds i8, ptr %5, i64 24
  %245 = getelementptr inbounds i8, ptr %2, i64 32
  %246 = load i64, ptr %245, align 8, !tbaa !3
  %247 = or i64 %246, %161
  %248 = getelementptr inbounds i8, ptr %5, i64 32
  %249 = getelementptr inbounds i8, ptr %2, i64 40
  %250 = load i64, ptr %249, align 8, !tbaa !3
  %251 = or i64 %250, %167
  %252 = getelementptr inbounds i8, ptr %5, i64 40
  %253 = getelementptr inbounds i8, ptr %2, i64 48
  %254 = load i64, ptr %253, align 8, !tbaa !3
  %255 = or i64 %254, %173
  %256 = getelementptr inbounds i8, ptr %5, i64 48
  %257 = getelementptr inbounds i8, ptr %2, i64 56
  %258 = load i64, ptr %257, align 8, !tbaa !3
  %259 = or i64 %258, %179
  %260 = getelementptr inbounds i8, ptr %5, i64 56
  %261 = getelementptr inbounds i8, ptr %2, i64 64
  %262 = load i64, ptr %261, align 8, !tbaa !3
  %263 = or i64 %262, %185
  %264 = getelementptr inbounds i8, ptr %5, i64 64
  %265 = getelementptr inbounds i8, ptr %2, i64 72
  %266 = load i64, ptr %265, align 8, !tbaa !3
  %267 = or i64 %266, %191
  %268 = getelementptr inbounds i8, ptr %5, i64 72
  %269 = getelementptr inbounds i8, ptr %2, i64 80
  %270 = load i64, ptr %269, align 8, !tbaa !3
  %271 = or i64 %270, %197
  %272 = getelementptr inbounds i8, ptr %5, i64 80
  %273 = getelementptr inbounds i8, ptr %2, i64 88
  %274 = load i64, ptr %273, align 8, !tbaa !3
  %275 = or i64 %274, %203
  %276 = getelementptr inbounds i8, ptr %5, i64 88
  %277 = getelementptr inbounds i8, ptr %2, i64 96
  %278 = load i64, ptr %277, align 8, !tbaa !3
  %279 = or i64 %278, %209
  %280 = getelementptr inbounds i8, ptr %5, i64 96
  %281 = getelementptr inbounds i8, ptr %2, i64 104
  %282 = load i64, ptr %281, align 8, !tbaa !3
  %283 = or i64 %282, %215
  %284 = getelementptr inbounds i8, ptr %5, i64 104
  %285 = getelementptr inbounds i8, ptr %2, i64 112
  %286 = load i64, ptr %285, align 8, !tbaa !3
  %287 = or i64 %286, %221
  %288 = getelementptr inbounds i8, ptr %5, i64 112
  %289 = getelementptr inbounds i8, ptr %2, i64 120
  %290 = load i64, ptr %289, align 8, !tbaa !3
  %291 = or i64 %290, %227
  %292 = getelementptr inbounds i8, ptr %5, i64 120
  store i64 %232, ptr %5, align 8, !tbaa !3
  store i64 %235, ptr %236, align 8, !tbaa !3
  store i64 %239, ptr %240, align 8, !tbaa !3
  store i64 %243, ptr %244, align 8, !tbaa !3
  store i64 %247, ptr %248, align 8, !tbaa !3
  store i64 %251, ptr %252, align 8, !tbaa !3
  store i64 %255, ptr %256, align 8, !tbaa !3
  store i64 %259, ptr %260, align 8, !tbaa !3
  store i64 %263, ptr %264, align 8, !tbaa !3
  store i64 %267, ptr %268, align 8, !tbaa !3
  store i64 %271, ptr %272, align 8, !tbaa !3
  store i64 %275, ptr %276, align 8, !tbaa !3
  store i64 %279, ptr %280, align 8, !tbaa !3
  store i64 %283, ptr %284, align 8, !tbaa !3
  store i64 %287, ptr %288, align 8, !tbaa !3
  store i64 %291, ptr %292, align 8, !tbaa !3
  br label %293

293:                                              ; preds = %293, %138
  %294 = phi i64 [ 0, %138 ], [ %301, %293 ]
  %295 = phi i32 [ 0, %138 ], [ %300, %293 ]
  %296 = getelementptr inbounds [16 x i64], ptr %1, i64 0, i64 %294
  %297 = load i64, ptr %296, align 8, !tbaa !3
  %298 = tail call range(i64 0, 65) i64 @llvm.ctpop.i64(i64 %297)
  %299 = trunc nuw nsw i64 %298 to i32
  %300 = add nuw nsw i32 %295, %299
  %301 = add nuw nsw i64 %294, 1
  %302 = icmp eq i64 %301, 16
  br i1 %302, label %303, label %293, !llvm.loop !11

303:                                              ; preds = %293, %303
  %304 = phi i64 [ %311, %303 ], [ 0, %293 ]
  %305 = phi i32 [ %310, %303 ], [ 0, %293 ]
  %306 = getelementptr inbounds [16 x i64], ptr %2, i64 0, i64 %304
  %307 = load i64, ptr %306, align 8, !tbaa !3
  %308 = tail call range(i64 0, 65) i64 @llvm.ctpop.i64(i64 %307)
  %309 = trunc nuw nsw i64 %308 to i32
  %310 = add nuw nsw i32 %305, %309
  %311 = add nuw nsw i64 %304, 1
  %312 = icmp eq i64 %311, 16
  br i1 %312, label %313, label %303, !llvm.loop !11

313:                                              ; preds = %303, %313
  %314 = phi i64 [ %321, %313 ], [ 0, %303 ]
  %315 = phi i32 [ %320, %313 ], [ 0, %303 ]
  %316 = getelementptr inbounds [16 x i64], ptr %3, i64 0, i64 %314
  %317 = load i64, ptr %316, align 8, !tbaa !3
  %318 = tail call range(i64 0, 65) i64 @llvm.ctpop.i64(i64 %317)
  %319 = trunc nuw nsw i64 %318 to i32
  %320 = add nuw nsw i32 %315, %319
  %321 = add nuw nsw i64 %314, 1
  %322 = icmp eq i64 %321, 16
  br i1 %322, label %323, label %313, !llvm.loop !11

323:                                              ; preds = %313, %323
  %324 = phi i64 [ %331, %323 ], [ 0, %313 ]
  %325 = phi i32 [ %330, %323 ], [ 0, %313 ]
  %326 = getelementptr inbounds [16 x i64], ptr %4, i64 0, i64 %324
  %327 = load i64, ptr %326, align 8, !tbaa !3
  %328 = tail call range(i64 0, 65) i64 @llvm.ctpop.i64(i64 %327)
  %329 = trunc nuw nsw i64 %328 to i32
  %330 = add nuw nsw i32 %325, %329
  %331 = add nuw nsw i64 %324, 1
  %332 = icmp eq i64 %331, 16
  br i1 %332, label %333, label %323, !llvm.loop !11

333:                                              ; preds = %323, %333
  %334 = phi i64 [ %341, %333 ], [ 0, %323 ]
  %335 = phi i32 [ %340, %333 ], [ 0, %323 ]
  %336 = getelementptr inbounds [16 x i64], ptr %5, i64 0, i64 %334
  %337 = load i64, ptr %336, align 8, !tbaa !3
  %338 = tail call range(i64 0, 65) i64 @llvm.ctpop.i64(i64 %337)
  %339 = trunc nuw nsw i64 %338 to i32
  %340 = add nuw nsw i32 %335, %339
  %341 = add nuw nsw i64 %334, 1
  %342 = icmp eq i64 %341, 16
  br i1 %342, label %343, label %333, !llvm.loop !11

343:                                              ; preds = %333
  %344 = tail call i32 (ptr, ...) @printf(ptr noundef nonnull dereferenceable(1) @.str, i32 noundef %300, i32 noundef %310, i32 noundef %320, i32 noundef %330, i32 noundef %340) #6
  %345 = and i64 %224, -16
  %346 = icmp eq i64 %345, 0
  br i1 %346, label %347, label %350

347:                                              ; preds = %343
  %348 = load i64, ptr %231, align 8, !tbaa !3
  %349 = icmp eq i64 %348, 0
  br i1 %349, label %440, label %350

350:                                              ; preds = %343, %347
  %351 = phi i32 [ 896, %343 ], [ 960, %347 ]
  %352 = phi i64 [ %345, %343 ], [ %348, %347 ]
  %353 = tail call range(i64 0, 65) i64 @llvm.cttz.i64(i64 %352, i1 true)
  %354 = trunc nuw nsw i64 %353 to i32
  %355 = or disjoint i32 %351, %354
  br label %452

356:                                              ; preds = %433, %133
  %357 = icmp eq i32 %134, 1023
  br i1 %357, label %138, label %358

358:                                              ; preds = %356
  %359 = add nsw i32 %134, 1
  %360 = sdiv i32 %359, 64
  %361 = srem i32 %359, 64
  %362 = zext nneg i32 %361 to i64
  %363 = shl nsw i64 -1, %362
  %364 = sext i32 %360 to i64
  %365 = getelementptr inbounds [16 x i64], ptr %2, i64 0, i64 %364
  %366 = load i64, ptr %365, align 8, !tbaa !3
  %367 = and i64 %366, %363
  %368 = icmp eq i64 %367, 0
  br i1 %368, label %369, label %382

369:                                              ; preds = %358
  %370 = add nsw i64 %364, 1
  %371 = icmp eq i64 %370, 16
  br i1 %371, label %138, label %372

372:                                              ; preds = %369, %377
  %373 = phi i64 [ %378, %377 ], [ %370, %369 ]
  %374 = getelementptr inbounds [16 x i64], ptr %2, i64 0, i64 %373
  %375 = load i64, ptr %374, align 8, !tbaa !3
  %376 = icmp eq i64 %375, 0
  br i1 %376, label %377, label %380

377:                                              ; preds = %372
  %378 = add nsw i64 %373, 1
  %379 = icmp eq i64 %378, 16
  br i1 %379, label %138, label %372, !llvm.loop !12

380:                                              ; preds = %372
  %381 = trunc nsw i64 %373 to i32
  br label %382

382:                                              ; preds = %358, %380
  %383 = phi i32 [ %360, %358 ], [ %381, %380 ]
  %384 = phi i64 [ %367, %358 ], [ %375, %380 ]
  %385 = shl nsw i32 %383, 6
  %386 = tail call range(i64 0, 65) i64 @llvm.cttz.i64(i64 %384, i1 true)
  %387 = trunc nuw nsw i64 %386 to i32
  %388 = or disjoint i32 %385, %387
  %389 = icmp slt i32 %388, 1024
  br i1 %389, label %133, label %138, !llvm.loop !14

390:                                              ; preds = %136, %433
  %391 = phi i32 [ %435, %433 ], [ %137, %136 ]
  %392 = phi i32 [ %434, %433 ], [ %134, %136 ]
  %393 = and i32 %391, 63
  %394 = zext nneg i32 %393 to i64
  %395 = shl nuw i64 1, %394
  %396 = lshr i32 %391, 6
  %397 = zext nneg i32 %396 to i64
  %398 = getelementptr inbounds [16 x i64], ptr %3, i64 0, i64 %397
  %399 = load i64, ptr %398, align 8, !tbaa !3
  %400 = or i64 %399, %395
  store i64 %400, ptr %398, align 8, !tbaa !3
  %401 = icmp sgt i32 %392, 1022
  br i1 %401, label %433, label %402

402:                                              ; preds = %390
  %403 = add nsw i32 %392, 1
  %404 = sdiv i32 %403, 64
  %405 = srem i32 %403, 64
  %406 = zext nneg i32 %405 to i64
  %407 = shl nsw i64 -1, %406
  %408 = sext i32 %404 to i64
  %409 = getelementptr inbounds [16 x i64], ptr %2, i64 0, i64 %408
  %410 = load i64, ptr %409, align 8, !tbaa !3
  %411 = and i64 %410, %407
  %412 = icmp eq i64 %411, 0
  br i1 %412, label %413, label %426

413:                                              ; preds = %402
  %414 = add nsw i64 %408, 1
  %415 = icmp eq i64 %414, 16
  br i1 %415, label %433, label %416

416:                                              ; preds = %413, %421
  %417 = phi i64 [ %422, %421 ], [ %414, %413 ]
  %418 = getelementptr inbounds [16 x i64], ptr %2, i64 0, i64 %417
  %419 = load i64, ptr %418, align 8, !tbaa !3
  %420 = icmp eq i64 %419, 0
  br i1 %420, label %421, label %424

421:                                              ; preds = %416
  %422 = add nsw i64 %417, 1
  %423 = icmp eq i64 %422, 16
  br i1 %423, label %433, label %416, !llvm.loop !12

424:                                              ; preds = %416
  %425 = trunc nsw i64 %417 to i32
  br label %426

426:                                              ; preds = %424, %402
  %427 = phi i32 [ %404, %402 ], [ %425, %424 ]
  %428 = phi i64 [ %411, %402 ], [ %419, %424 ]
  %429 = shl nsw i32 %427, 6
  %430 = tail call range(i64 0, 65) i64 @llvm.cttz.i64(i64 %428, i1 true)
  %431 = trunc nuw nsw i64 %430 to i32
  %432 = or disjoint i32 %429, %431
  br label %433

433:                                              ; preds = %421, %390, %413, %426
  %434 = phi i32 [ %432, %426 ], [ 1024, %390 ], [ 1024, %413 ], [ 1024, %421 ]
  %435 = add nsw i32 %434, %134
  %436 = icmp slt i32 %435, 1024
  br i1 %436, label %390, label %356, !llvm.loop !15

437:                                              ; preds = %466, %452
  %438 = phi i32 [ 1023, %452 ], [ %453, %466 ]
  %439 = tail call i32 (ptr, ...) @printf(ptr noundef nonnull dereferenceable(1) @.str.1, i32 noundef %438, i32 noundef 10) #6
  br label %440

440:                                              ; preds = %492, %505, %500, %437, %347
  br label %441

441:                                              ; preds = %440, %441
  %442 = phi i64 [ %449, %441 ], [ 0, %440 ]
  %443 = phi i32 [ %448, %441 ], [ 0, %440 ]
  %444 = getelementptr inbounds [16 x i64], ptr %4, i64 0, i64 %442
  %445 = load i64, ptr %444, align 8, !tbaa !3
  %446 = tail call range(i64 0, 65) i64 @llvm.ctpop.i64(i64 %445)
  %447 = trunc nuw nsw i64 %446 to i32
  %448 = add nuw nsw i32 %443, %447
  %449 = add nuw nsw i64 %442, 1
  %450 = icmp eq i64 %449, 16
  br i1 %450, label %451, label %441, !llvm.loop !11

451:                                              ; preds = %441
  call void @llvm.lifetime.end.p0(i64 128, ptr nonnull %5) #5
  call void @llvm.lifetime.end.p0(i64 128, ptr nonnull %4) #5
  call void @llvm.lifetime.end.p0(i64 128, ptr nonnull %3) #5
  call void @llvm.lifetime.end.p0(i64 128, ptr nonnull %2) #5
  call void @llvm.lifetime.end.p0(i64 128, ptr nonnull %1) #5
  ret i32 %448

452:                                              ; preds = %350, %505
  %453 = phi i32 [ %511, %505 ], [ %355, %350 ]
  %454 = icmp eq i32 %453, 1023
  br i1 %454, label %437, label %455

455:                                              ; preds = %452
  %456 = add nsw i32 %453, 1
  %457 = sdiv i32 %456, 64
  %458 = srem i32 %456, 64
  %459 = zext nneg i32 %458 to i64
  %460 = shl nsw i64 -1, %459
  %461 = sext i32 %457 to i64
  %462 = getelementptr inbounds [16 x i64], ptr %4, i64 0, i64 %461
  %463 = load i64, ptr %462, align 8, !tbaa !3
  %464 = and i64 %463, %460
  %465 = icmp eq i64 %464, 0
  br i1 %465, label %466, label %479

466:                                              ; preds = %455
  %467 = add nsw i64 %461, 1
  %468 = icmp eq i64 %467, 16
  br i1 %468, label %437, label %469

469:                                              ; preds = %466, %474
  %470 = phi i64 [ %475, %474 ], [ %467, %466 ]
  %471 = getelementptr inbounds [16 x i64], ptr %4, i64 0, i64 %470
  %472 = load i64, ptr %471, align 8, !tbaa !3
  %473 = icmp eq i64 %472, 0
  br i1 %473, label %474, label %477

474:                                              ; preds = %469
  %475 = add nsw i64 %470, 1
  %476 = icmp eq i64 %475, 16
  br i1 %476, label %489, label %469, !llvm.loop !12

477:                                              ; preds = %469
  %478 = trunc nsw i64 %470 to i32
  br label %479

479:                                              ; preds = %455, %477
  %480 = phi i32 [ %457, %455 ], [ %478, %477 ]
  %481 = phi i64 [ %464, %455 ], [ %472, %477 ]
  %482 = shl nsw i32 %480, 6
  %483 = tail call range(i64 0, 65) i64 @llvm.cttz.i64(i64 %481, i1 true)
  %484 = trunc nuw nsw i64 %483 to i32
  %485 = or disjoint i32 %482, %484
  %486 = freeze i32 %485
  %487 = icmp slt i32 %486, 1024
  %488 = select i1 %487, i32 32, i32 10
  br label %489

489:                                              ; preds = %474, %479
  %490 = phi i32 [ %488, %479 ], [ 10, %474 ]
  %491 = tail call i32 (ptr, ...) @printf(ptr noundef nonnull dereferenceable(1) @.str.1, i32 noundef %453, i32 noundef %490) #6
  br i1 %465, label %492, label %505

492:                                              ; preds = %489
  %493 = add nsw i64 %461, 1
  %494 = icmp eq i64 %493, 16
  br i1 %494, label %440, label %495

495:                                              ; preds = %492, %500
  %496 = phi i64 [ %501, %500 ], [ %493, %492 ]
  %497 = getelementptr inbounds [16 x i64], ptr %4, i64 0, i64 %496
  %498 = load i64, ptr %497, align 8, !tbaa !3
  %499 = icmp eq i64 %498, 0
  br i1 %499, label %500, label %503

500:                                              ; preds = %495
  %501 = add nsw i64 %496, 1
  %502 = icmp eq i64 %501, 16
  br i1 %502, label %440, label %495, !llvm.loop !12

503:                                              ; preds = %495
  %504 = trunc nsw i64 %496 to i32
  br label %505

505:                                              ; preds = %489, %503
  %506 = phi i32 [ %457, %489 ], [ %504, %503 ]
  %507 = phi i64 [ %464, %489 ], [ %498, %503 ]
  %508 = shl nsw i32 %506, 6
  %509 = tail call range(i64 0, 65) i64 @llvm.cttz.i64(i64 %507, i1 true)
  %510 = trunc nuw nsw i64 %509 to i32
  %511 = or disjoint i32 %508, %510
  %512 = icmp slt i32 %511, 1024
  br i1 %512, label %452, label %440, !llvm.loop !16
}

; Function Attrs: mustprogress nocallback nofree nosync nounwind willreturn memory(argmem: readwrite)
declare void @llvm.lifetime.start.p0(i64 immarg, ptr nocapture) #1

; Function Attrs: mustprogress nocallback nofree nounwind willreturn memory(argmem: write)
declare void @llvm.memset.p0.i64(ptr nocapture writeonly, i8, i64, i1 immarg) #2

; Function Attrs: mustprogress nocallback nofree nosync nounwind willreturn memory(argmem: readwrite)
declare void @llvm.lifetime.end.p0(i64 immarg, ptr nocapture) #1

; Function Attrs: nofree nounwind
declare dso_local noundef i32 @printf(ptr nocapture noundef readonly, ...) local_unnamed_addr #3

; Function Attrs: mustprogress nocallback nofree nosync nounwind speculatable willreturn memory(none)
declare i64 @llvm.cttz.i64(i64, i1 immarg) #4

; Function Attrs: mustprogress nocallback nofree nosync nounwind speculatable willreturn memory(none)
declare i64 @llvm.ctpop.i64(i64) #4

attributes #0 = { nofree nounwind uwtable "min-legal-vector-width"="0" "no-builtin-calloc" "no-trapping-math"="true" "stack-protector-buffer-size"="8" "target-cpu"="x86-64" "target-features"="+cmov,+cx8,+fxsr,-aes,-avx,-avx10.1-256,-avx10.1-512,-avx2,-avx512bf16,-avx512bitalg,-avx512bw,-avx512cd,-avx512dq,-avx512f,-avx512fp16,-avx512ifma,-avx512vbmi,-avx512vbmi2,-avx512vl,-avx512vnni,-avx512vp2intersect,-avx512vpopcntdq,-avxifma,-avxneconvert,-avxvnni,-avxvnniint16,-avxvnniint8,-f16c,-fma,-fma4,-gfni,-kl,-mmx,-pclmul,-sha,-sha512,-sm3,-sm4,-sse,-sse2,-sse3,-sse4.1,-sse4.2,-sse4a,-ssse3,-vaes,-vpclmulqdq,-widekl,-x87,-xop" "tune-cpu"="generic" }
attributes #1 = { mustprogress nocallback nofree nosync nounwind willreturn memory(argmem: readwrite) }
attributes #2 = { mustprogress nocallback nofree nounwind willreturn memory(argmem: write) }
attributes #3 = { nofree nounwind "no-builtin-calloc" "no-trapping-math"="true" "stack-protector-buffer-size"="8" "target-cpu"="x86-64" "target-features"="+cmov,+cx8,+fxsr,-aes,-avx,-avx10.1-256,-avx10.1-512,-avx2,-avx512bf16,-avx512bitalg,-avx512bw,-avx512cd,-avx512dq,-avx512f,-avx512fp16,-avx512ifma,-avx512vbmi,-avx512vbmi2,-avx512vl,-avx512vnni,-avx512vp2intersect,-avx512vpopcntdq,-avxifma,-avxneconvert,-avxvnni,-avxvnniint16,-avxvnniint8,-f16c,-fma,-fma4,-gfni,-kl,-mmx,-pclmul,-sha,-sha512,-sm3,-sm4,-sse,-sse2,-sse3,-sse4.1,-sse4.2,-sse4a,-ssse3,-vaes,-vpclmulqdq,-widekl,-x87,-xop" "tune-cpu"="generic" }
attributes #4 = { mustprogress nocallback nofree nosync nounwind speculatable willreturn memory(none) }
attributes #5 = { nounwind }
attributes #6 = { "no-builtin-calloc" }

!llvm.module.flags = !{!0, !1}
!llvm.ident = !{!2}

!0 = !{i32 1, !"wchar_size", i32 4}
!1 = !{i32 7, !"uwtable", i32 2}
!2 = !{!"Debian clang version 19.1.7 (3~deb12u1)"}
!3 = !{!4, !4, i64 0}
!4 = !{!"long", !5, i64 0}
!5 = !{!"omnipotent char", !6, i64 0}
!6 = !{!"Simple C/C++ TBAA"}
!7 = distinct !{!7, !8}
!8 = !{!"llvm.loop.mustprogress"}
!9 = distinct !{!9, !8}
!10 = distinct !{!10, !8}
!11 = distinct !{!11, !8}
!12 = distinct !{!12, !8, !13}
!13 = !{!"llvm.loop.peeled.count", i32 1}
!14 = distinct !{!14, !8}
!15 = distinct !{!15, !8}
!16 = distinct !{!16, !8}
