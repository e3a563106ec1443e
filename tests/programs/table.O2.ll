; ModuleID = 'table.c'
source_filename = "table.c"
target datalayout = "e-m:e-p270:32:32-p271:32:32-p272:64:64-i64:64-i128:128-f80:128-n8:16:32:64-S128"
target triple = "x86_64-pc-linux-gnu"

%struct.Slot = type { [8 x i8], i32, i32, i32 }

@slots = internal global [64 x %struct.Slot] zeroinitializer, align 16
@.str = private unnamed_addr constant [4 x i8] c"kd1\00", align 1
@.str.1 = private unnamed_addr constant [4 x i8] c"kc0\00", align 1
@.str.2 = private unnamed_addr constant [13 x i8] c"%d %d %d %d\0A\00", align 1

; Function Attrs: nofree nounwind uwtable
define dso_local range(i32 -255, 256) i32 @main() local_unnamed_addr #0 {
  %1 = alloca [8 x i8], align 8
  call void @llvm.lifetime.start.p0(i64 8, ptr nonnull %1) #6
  store i64 107, ptr %1, align 8
  %2 = getelementptr inbounds i8, ptr %1, i64 1
  %3 = getelementptr inbounds i8, ptr %1, i64 2
  br label %4

4:                                                ; preds = %0, %158
  %5 = phi i8 [ 107, %0 ], [ %159, %158 ]
  %6 = phi i32 [ 0, %0 ], [ %160, %158 ]
  %7 = add nuw nsw i32 %6, 230
  %8 = icmp ult i32 %6, 26
  %9 = select i1 %8, i32 %6, i32 %7
  %10 = trunc i32 %9 to i8
  %11 = add nuw i8 %10, 97
  store i8 %11, ptr %2, align 1, !tbaa !3
  %12 = icmp ugt i32 %6, 25
  %13 = zext i1 %12 to i8
  %14 = or disjoint i8 %13, 48
  store i8 %14, ptr %3, align 2, !tbaa !3
  %15 = mul nuw nsw i32 %6, %6
  %16 = icmp eq i8 %5, 0
  br i1 %16, label %27, label %17

17:                                               ; preds = %4, %17
  %18 = phi i8 [ %25, %17 ], [ %5, %4 ]
  %19 = phi i32 [ %23, %17 ], [ -2128831035, %4 ]
  %20 = phi ptr [ %24, %17 ], [ %1, %4 ]
  %21 = zext i8 %18 to i32
  %22 = xor i32 %19, %21
  %23 = mul i32 %22, 16777619
  %24 = getelementptr inbounds i8, ptr %20, i64 1
  %25 = load i8, ptr %24, align 1, !tbaa !3
  %26 = icmp eq i8 %25, 0
  br i1 %26, label %27, label %17, !llvm.loop !6

27:                                               ; preds = %17, %4
  %28 = phi i32 [ -2128831035, %4 ], [ %23, %17 ]
  br label %29

29:                                               ; preds = %68, %27
  %30 = phi i1 [ false, %27 ], [ %71, %68 ]
  %31 = phi i32 [ 0, %27 ], [ %70, %68 ]
  %32 = phi ptr [ null, %27 ], [ %69, %68 ]
  %33 = add i32 %31, %28
  %34 = and i32 %33, 63
  %35 = zext nneg i32 %34 to i64
  %36 = getelementptr inbounds [64 x %struct.Slot], ptr @slots, i64 0, i64 %35
  %37 = getelementptr inbounds i8, ptr %36, i64 12
  %38 = load i32, ptr %37, align 4, !tbaa !8
  switch i32 %38, label %45 [
    i32 0, label %39
    i32 2, label %42
  ]

39:                                               ; preds = %29
  %40 = icmp eq ptr %32, null
  %41 = select i1 %40, ptr %36, ptr %32
  br label %73

42:                                               ; preds = %29
  %43 = icmp eq ptr %32, null
  %44 = select i1 %43, ptr %36, ptr %32
  br label %68

45:                                               ; preds = %29
  %46 = getelementptr inbounds i8, ptr %36, i64 8
  %47 = load i32, ptr %46, align 4, !tbaa !11
  %48 = icmp eq i32 %47, %28
  br i1 %48, label %49, label %68

49:                                               ; preds = %45
  %50 = load i8, ptr %36, align 4, !tbaa !3
  %51 = icmp eq i8 %50, 0
  br i1 %51, label %63, label %52

52:                                               ; preds = %49, %58
  %53 = phi i8 [ %61, %58 ], [ %50, %49 ]
  %54 = phi ptr [ %60, %58 ], [ %1, %49 ]
  %55 = phi ptr [ %59, %58 ], [ %36, %49 ]
  %56 = load i8, ptr %54, align 1, !tbaa !3
  %57 = icmp eq i8 %53, %56
  br i1 %57, label %58, label %63

58:                                               ; preds = %52
  %59 = getelementptr inbounds i8, ptr %55, i64 1
  %60 = getelementptr inbounds i8, ptr %54, i64 1
  %61 = load i8, ptr %59, align 1, !tbaa !3
  %62 = icmp eq i8 %61, 0
  br i1 %62, label %63, label %52, !llvm.loop !12

63:                                               ; preds = %58, %52, %49
  %64 = phi ptr [ %1, %49 ], [ %54, %52 ], [ %60, %58 ]
  %65 = phi i8 [ 0, %49 ], [ %53, %52 ], [ 0, %58 ]
  %66 = load i8, ptr %64, align 1, !tbaa !3
  %67 = icmp eq i8 %65, %66
  br i1 %67, label %73, label %68

68:                                               ; preds = %63, %45, %42
  %69 = phi ptr [ %44, %42 ], [ %32, %63 ], [ %32, %45 ]
  %70 = add nuw nsw i32 %31, 1
  %71 = icmp ugt i32 %31, 62
  %72 = icmp eq i32 %70, 64
  br i1 %72, label %73, label %29, !llvm.loop !13

73:                                               ; preds = %68, %63, %39
  %74 = phi ptr [ %32, %39 ], [ %69, %68 ], [ %32, %63 ]
  %75 = phi i1 [ %30, %39 ], [ %71, %68 ], [ %30, %63 ]
  %76 = phi ptr [ %41, %39 ], [ %36, %63 ], [ %36, %68 ]
  %77 = select i1 %75, ptr %74, ptr %76
  %78 = icmp eq ptr %77, null
  br i1 %78, label %99, label %79

79:                                               ; preds = %73
  tail call void @llvm.memset.p0.i64(ptr noundef nonnull align 4 dereferenceable(20) %77, i8 0, i64 20, i1 false)
  %80 = call i64 @strlen(ptr noundef nonnull readonly dereferenceable(1) %1) #7
  %81 = add i64 %80, 1
  call void @llvm.memcpy.p0.p0.i64(ptr nonnull align 4 %77, ptr nonnull readonly align 8 %1, i64 %81, i1 false)
  %82 = load i8, ptr %1, align 8, !tbaa !3
  %83 = icmp eq i8 %82, 0
  br i1 %83, label %94, label %84

84:                                               ; preds = %79, %84
  %85 = phi i8 [ %92, %84 ], [ %82, %79 ]
  %86 = phi i32 [ %90, %84 ], [ -2128831035, %79 ]
  %87 = phi ptr [ %91, %84 ], [ %1, %79 ]
  %88 = zext i8 %85 to i32
  %89 = xor i32 %86, %88
  %90 = mul i32 %89, 16777619
  %91 = getelementptr inbounds i8, ptr %87, i64 1
  %92 = load i8, ptr %91, align 1, !tbaa !3
  %93 = icmp eq i8 %92, 0
  br i1 %93, label %94, label %84, !llvm.loop !6

94:                                               ; preds = %84, %79
  %95 = phi i32 [ -2128831035, %79 ], [ %90, %84 ]
  %96 = getelementptr inbounds i8, ptr %77, i64 8
  store i32 %95, ptr %96, align 4, !tbaa !11
  %97 = getelementptr inbounds i8, ptr %77, i64 12
  store i32 1, ptr %97, align 4, !tbaa !8
  %98 = getelementptr inbounds i8, ptr %77, i64 16
  store i32 %15, ptr %98, align 4, !tbaa !14
  br label %99

99:                                               ; preds = %73, %94
  %100 = phi i8 [ %5, %73 ], [ %82, %94 ]
  %101 = urem i32 %6, 3
  %102 = icmp eq i32 %101, 2
  br i1 %102, label %103, label %158

103:                                              ; preds = %99
  %104 = load i8, ptr %1, align 8, !tbaa !3
  %105 = icmp eq i8 %104, 0
  br i1 %105, label %116, label %106

106:                                              ; preds = %103, %106
  %107 = phi i8 [ %114, %106 ], [ %104, %103 ]
  %108 = phi i32 [ %112, %106 ], [ -2128831035, %103 ]
  %109 = phi ptr [ %113, %106 ], [ %1, %103 ]
  %110 = zext i8 %107 to i32
  %111 = xor i32 %108, %110
  %112 = mul i32 %111, 16777619
  %113 = getelementptr inbounds i8, ptr %109, i64 1
  %114 = load i8, ptr %113, align 1, !tbaa !3
  %115 = icmp eq i8 %114, 0
  br i1 %115, label %116, label %106, !llvm.loop !6

116:                                              ; preds = %106, %103
  %117 = phi i32 [ -2128831035, %103 ], [ %112, %106 ]
  br label %118

118:                                              ; preds = %150, %116
  %119 = phi i1 [ false, %116 ], [ %152, %150 ]
  %120 = phi i32 [ 0, %116 ], [ %151, %150 ]
  %121 = add i32 %120, %117
  %122 = and i32 %121, 63
  %123 = zext nneg i32 %122 to i64
  %124 = getelementptr inbounds [64 x %struct.Slot], ptr @slots, i64 0, i64 %123
  %125 = getelementptr inbounds i8, ptr %124, i64 12
  %126 = load i32, ptr %125, align 4, !tbaa !8
  switch i32 %126, label %127 [
    i32 0, label %158
    i32 2, label %150
  ]

127:                                              ; preds = %118
  %128 = getelementptr inbounds i8, ptr %124, i64 8
  %129 = load i32, ptr %128, align 4, !tbaa !11
  %130 = icmp eq i32 %129, %117
  br i1 %130, label %131, label %150

131:                                              ; preds = %127
  %132 = load i8, ptr %124, align 4, !tbaa !3
  %133 = icmp eq i8 %132, 0
  br i1 %133, label %145, label %134

134:                                              ; preds = %131, %140
  %135 = phi i8 [ %143, %140 ], [ %132, %131 ]
  %136 = phi ptr [ %142, %140 ], [ %1, %131 ]
  %137 = phi ptr [ %141, %140 ], [ %124, %131 ]
  %138 = load i8, ptr %136, align 1, !tbaa !3
  %139 = icmp eq i8 %135, %138
  br i1 %139, label %140, label %145

140:                                              ; preds = %134
  %141 = getelementptr inbounds i8, ptr %137, i64 1
  %142 = getelementptr inbounds i8, ptr %136, i64 1
  %143 = load i8, ptr %141, align 1, !tbaa !3
  %144 = icmp eq i8 %143, 0
  br i1 %144, label %145, label %134, !llvm.loop !12

145:                                              ; preds = %140, %134, %131
  %146 = phi ptr [ %1, %131 ], [ %142, %140 ], [ %136, %134 ]
  %147 = phi i8 [ 0, %131 ], [ 0, %140 ], [ %135, %134 ]
  %148 = load i8, ptr %146, align 1, !tbaa !3
  %149 = icmp eq i8 %147, %148
  br i1 %149, label %154, label %150

150:                                              ; preds = %118, %145, %127
  %151 = add nuw nsw i32 %120, 1
  %152 = icmp ugt i32 %120, 62
  %153 = icmp eq i32 %151, 64
  br i1 %153, label %154, label %118, !llvm.loop !13

154:                                              ; preds = %145, %150
  %155 = phi i1 [ %152, %150 ], [ %119, %145 ]
  br i1 %155, label %158, label %156

156:                                              ; preds = %154
  %157 = getelementptr inbounds i8, ptr %124, i64 12
  store i32 2, ptr %157, align 4, !tbaa !8
  br label %158

158:                                              ; preds = %118, %154, %156, %99
  %159 = phi i8 [ %104, %154 ], [ %104, %156 ], [ %100, %99 ], [ %104, %118 ]
  %160 = add nuw nsw i32 %6, 1
  %161 = icmp eq i32 %160, 50
  br i1 %161, label %243, label %4, !llvm.loop !15

162:                                              ; preds = %269, %194
  %163 = phi i1 [ %196, %194 ], [ false, %269 ]
  %164 = phi i32 [ %195, %194 ], [ 0, %269 ]
  %165 = add nuw i32 %164, 33
  %166 = and i32 %165, 63
  %167 = zext nneg i32 %166 to i64
  %168 = getelementptr inbounds [64 x %struct.Slot], ptr @slots, i64 0, i64 %167
  %169 = getelementptr inbounds i8, ptr %168, i64 12
  %170 = load i32, ptr %169, align 4, !tbaa !8
  switch i32 %170, label %171 [
    i32 0, label %198
    i32 2, label %194
  ]

171:                                              ; preds = %162
  %172 = getelementptr inbounds i8, ptr %168, i64 8
  %173 = load i32, ptr %172, align 4, !tbaa !11
  %174 = icmp eq i32 %173, 739453793
  br i1 %174, label %175, label %194

175:                                              ; preds = %171
  %176 = load i8, ptr %168, align 4, !tbaa !3
  %177 = icmp eq i8 %176, 0
  br i1 %177, label %189, label %178

178:                                              ; preds = %175, %184
  %179 = phi i8 [ %187, %184 ], [ %176, %175 ]
  %180 = phi ptr [ %186, %184 ], [ @.str, %175 ]
  %181 = phi ptr [ %185, %184 ], [ %168, %175 ]
  %182 = load i8, ptr %180, align 1, !tbaa !3
  %183 = icmp eq i8 %179, %182
  br i1 %183, label %184, label %189

184:                                              ; preds = %178
  %185 = getelementptr inbounds i8, ptr %181, i64 1
  %186 = getelementptr inbounds i8, ptr %180, i64 1
  %187 = load i8, ptr %185, align 1, !tbaa !3
  %188 = icmp eq i8 %187, 0
  br i1 %188, label %189, label %178, !llvm.loop !12

189:                                              ; preds = %184, %178, %175
  %190 = phi ptr [ @.str, %175 ], [ %186, %184 ], [ %180, %178 ]
  %191 = phi i8 [ 0, %175 ], [ 0, %184 ], [ %179, %178 ]
  %192 = load i8, ptr %190, align 1, !tbaa !3
  %193 = icmp eq i8 %191, %192
  br i1 %193, label %198, label %194

194:                                              ; preds = %162, %189, %171
  %195 = add nuw nsw i32 %164, 1
  %196 = icmp ugt i32 %164, 62
  %197 = icmp eq i32 %195, 64
  br i1 %197, label %198, label %162, !llvm.loop !13

198:                                              ; preds = %162, %189, %194
  %199 = phi i1 [ %196, %194 ], [ %163, %189 ], [ %163, %162 ]
  %200 = phi ptr [ %168, %194 ], [ %168, %189 ], [ null, %162 ]
  %201 = select i1 %199, ptr null, ptr %200
  br label %202

202:                                              ; preds = %198, %234
  %203 = phi i1 [ %236, %234 ], [ false, %198 ]
  %204 = phi i32 [ %235, %234 ], [ 0, %198 ]
  %205 = add nuw i32 %204, 1
  %206 = and i32 %205, 63
  %207 = zext nneg i32 %206 to i64
  %208 = getelementptr inbounds [64 x %struct.Slot], ptr @slots, i64 0, i64 %207
  %209 = getelementptr inbounds i8, ptr %208, i64 12
  %210 = load i32, ptr %209, align 4, !tbaa !8
  switch i32 %210, label %211 [
    i32 0, label %238
    i32 2, label %234
  ]

211:                                              ; preds = %202
  %212 = getelementptr inbounds i8, ptr %208, i64 8
  %213 = load i32, ptr %212, align 4, !tbaa !11
  %214 = icmp eq i32 %213, 755392769
  br i1 %214, label %215, label %234

215:                                              ; preds = %211
  %216 = load i8, ptr %208, align 4, !tbaa !3
  %217 = icmp eq i8 %216, 0
  br i1 %217, label %229, label %218

218:                                              ; preds = %215, %224
  %219 = phi i8 [ %227, %224 ], [ %216, %215 ]
  %220 = phi ptr [ %226, %224 ], [ @.str.1, %215 ]
  %221 = phi ptr [ %225, %224 ], [ %208, %215 ]
  %222 = load i8, ptr %220, align 1, !tbaa !3
  %223 = icmp eq i8 %219, %222
  br i1 %223, label %224, label %229

224:                                              ; preds = %218
  %225 = getelementptr inbounds i8, ptr %221, i64 1
  %226 = getelementptr inbounds i8, ptr %220, i64 1
  %227 = load i8, ptr %225, align 1, !tbaa !3
  %228 = icmp eq i8 %227, 0
  br i1 %228, label %229, label %218, !llvm.loop !12

229:                                              ; preds = %224, %218, %215
  %230 = phi ptr [ @.str.1, %215 ], [ %226, %224 ], [ %220, %218 ]
  %231 = phi i8 [ 0, %215 ], [ 0, %224 ], [ %219, %218 ]
  %232 = load i8, ptr %230, align 1, !tbaa !3
  %233 = icmp eq i8 %231, %232
  br i1 %233, label %238, label %234

234:                                              ; preds = %202, %229, %211
  %235 = add nuw nsw i32 %204, 1
  %236 = icmp ugt i32 %204, 62
  %237 = icmp eq i32 %235, 64
  br i1 %237, label %238, label %202, !llvm.loop !13

238:                                              ; preds = %202, %229, %234
  %239 = phi i1 [ %236, %234 ], [ %203, %229 ], [ %203, %202 ]
  %240 = phi ptr [ %208, %234 ], [ %208, %229 ], [ null, %202 ]
  %241 = select i1 %239, ptr null, ptr %240
  %242 = icmp eq ptr %201, null
  br i1 %242, label %277, label %274

243:                                              ; preds = %158, %269
  %244 = phi i64 [ %272, %269 ], [ 0, %158 ]
  %245 = phi i32 [ %271, %269 ], [ 0, %158 ]
  %246 = phi i32 [ %270, %269 ], [ 0, %158 ]
  %247 = getelementptr inbounds [64 x %struct.Slot], ptr @slots, i64 0, i64 %244
  %248 = getelementptr inbounds i8, ptr %247, i64 12
  %249 = load i32, ptr %248, align 4, !tbaa !8
  %250 = icmp eq i32 %249, 1
  br i1 %250, label %251, label %256

251:                                              ; preds = %243
  %252 = add nsw i32 %245, 1
  %253 = getelementptr inbounds i8, ptr %247, i64 16
  %254 = load i32, ptr %253, align 8, !tbaa !14
  %255 = add nsw i32 %254, %246
  br label %256

256:                                              ; preds = %243, %251
  %257 = phi i32 [ %255, %251 ], [ %246, %243 ]
  %258 = phi i32 [ %252, %251 ], [ %245, %243 ]
  %259 = or disjoint i64 %244, 1
  %260 = getelementptr inbounds [64 x %struct.Slot], ptr @slots, i64 0, i64 %259
  %261 = getelementptr inbounds i8, ptr %260, i64 12
  %262 = load i32, ptr %261, align 8, !tbaa !8
  %263 = icmp eq i32 %262, 1
  br i1 %263, label %264, label %269

264:                                              ; preds = %256
  %265 = add nsw i32 %258, 1
  %266 = getelementptr inbounds i8, ptr %260, i64 16
  %267 = load i32, ptr %266, align 4, !tbaa !14
  %268 = add nsw i32 %267, %257
  br label %269

269:                                              ; preds = %264, %256
  %270 = phi i32 [ %268, %264 ], [ %257, %256 ]
  %271 = phi i32 [ %265, %264 ], [ %258, %256 ]
  %272 = add nuw nsw i64 %244, 2
  %273 = icmp eq i64 %272, 64
  br i1 %273, label %162, label %243, !llvm.loop !16

274:                                              ; preds = %238
  %275 = getelementptr inbounds i8, ptr %201, i64 16
  %276 = load i32, ptr %275, align 4, !tbaa !14
  br label %277

277:                                              ; preds = %238, %274
  %278 = phi i32 [ %276, %274 ], [ -1, %238 ]
  %279 = icmp eq ptr %241, null
  br i1 %279, label %283, label %280

280:                                              ; preds = %277
  %281 = getelementptr inbounds i8, ptr %241, i64 16
  %282 = load i32, ptr %281, align 4, !tbaa !14
  br label %283

283:                                              ; preds = %277, %280
  %284 = phi i32 [ %282, %280 ], [ -1, %277 ]
  %285 = tail call i32 (ptr, ...) @printf(ptr noundef nonnull dereferenceable(1) @.str.2, i32 noundef %271, i32 noundef %270, i32 noundef %278, i32 noundef %284) #8
  %286 = srem i32 %270, 256
  call void @llvm.lifetime.end.p0(i64 8, ptr nonnull %1) #6
  ret i32 %286
}

; Function Attrs: mustprogress nocallback nofree nosync nounwind willreturn memory(argmem: readwrite)
declare void @llvm.lifetime.start.p0(i64 immarg, ptr nocapture) #1

; Function Attrs: mustprogress nocallback nofree nounwind willreturn memory(argmem: readwrite)
declare void @llvm.memcpy.p0.p0.i64(ptr noalias nocapture writeonly, ptr noalias nocapture readonly, i64, i1 immarg) #2

; Function Attrs: mustprogress nocallback nofree nosync nounwind willreturn memory(argmem: readwrite)
declare void @llvm.lifetime.end.p0(i64 immarg, ptr nocapture) #1

; Function Attrs: nofree nounwind
declare dso_local noundef i32 @printf(ptr nocapture noundef readonly, ...) local_unnamed_addr #3

; Function Attrs: mustprogress nocallback nofree nounwind willreturn memory(argmem: write)
declare void @llvm.memset.p0.i64(ptr nocapture writeonly, i8, i64, i1 immarg) #4

; Function Attrs: mustprogress nofree nounwind willreturn memory(argmem: read)
declare dso_local i64 @strlen(ptr nocapture noundef) local_unnamed_addr #5

attributes #0 = { nofree nounwind uwtable "min-legal-vector-width"="0" "no-builtin-calloc" "no-trapping-math"="true" "stack-protector-buffer-size"="8" "target-cpu"="x86-64" "target-features"="+cmov,+cx8,+fxsr,-aes,-avx,-avx10.1-256,-avx10.1-512,-avx2,-avx512bf16,-avx512bitalg,-avx512bw,-avx512cd,-avx512dq,-avx512f,-avx512fp16,-avx512ifma,-avx512vbmi,-avx512vbmi2,-avx512vl,-avx512vnni,-avx512vp2intersect,-avx512vpopcntdq,-avxifma,-avxneconvert,-avxvnni,-avxvnniint16,-avxvnniint8,-f16c,-fma,-fma4,-gfni,-kl,-mmx,-pclmul,-sha,-sha512,-sm3,-sm4,-sse,-sse2,-sse3,-sse4.1,-sse4.2,-sse4a,-ssse3,-vaes,-vpclmulqdq,-widekl,-x87,-xop" "tune-cpu"="generic" }
attributes #1 = { mustprogress nocallback nofree nosync nounwind willreturn memory(argmem: readwrite) }
attributes #2 = { mustprogress nocallback nofree nounwind willreturn memory(argmem: readwrite) }
attributes #3 = { nofree nounwind "no-builtin-calloc" "no-trapping-math"="true" "stack-protector-buffer-size"="8" "target-cpu"="x86-64" "target-features"="+cmov,+cx8,+fxsr,-aes,-avx,-avx10.1-256,-avx10.1-512,-avx2,-avx512bf16,-avx512bitalg,-avx512bw,-avx512cd,-avx512dq,-avx512f,-avx512fp16,-avx512ifma,-avx512vbmi,-avx512vbmi2,-avx512vl,-avx512vnni,-avx512vp2intersect,-avx512vpopcntdq,-avxifma,-avxneconvert,-avxvnni,-avxvnniint16,-avxvnniint8,-f16c,-fma,-fma4,-gfni,-kl,-mmx,-pclmul,-sha,-sha512,-sm3,-sm4,-sse,-sse2,-sse3,-sse4.1,-sse4.2,-sse4a,-ssse3,-vaes,-vpclmulqdq,-widekl,-x87,-xop" "tune-cpu"="generic" }
attributes #4 = { mustprogress nocallback nofree nounwind willreturn memory(argmem: write) }
attributes #5 = { mustprogress nofree nounwind willreturn memory(argmem: read) "no-builtin-calloc" "no-trapping-math"="true" "stack-protector-buffer-size"="8" "target-cpu"="x86-64" "target-features"="+cmov,+cx8,+fxsr,-aes,-avx,-avx10.1-256,-avx10.1-512,-avx2,-avx512bf16,-avx512bitalg,-avx512bw,-avx512cd,-avx512dq,-avx512f,-avx512fp16,-avx512ifma,-avx512vbmi,-avx512vbmi2,-avx512vl,-avx512vnni,-avx512vp2intersect,-avx512vpopcntdq,-avxifma,-avxneconvert,-avxvnni,-avxvnniint16,-avxvnniint8,-f16c,-fma,-fma4,-gfni,-kl,-mmx,-pclmul,-sha,-sha512,-sm3,-sm4,-sse,-sse2,-sse3,-sse4.1,-sse4.2,-sse4a,-ssse3,-vaes,-vpclmulqdq,-widekl,-x87,-xop" "tune-cpu"="generic" }
attributes #6 = { nounwind }
attributes #7 = { nounwind willreturn memory(read) "no-builtin-calloc" }
attributes #8 = { "no-builtin-calloc" }

!llvm.module.flags = !{!0, !1}
!llvm.ident = !{!2}

!0 = !{i32 1, !"wchar_size", i32 4}
!1 = !{i32 7, !"uwtable", i32 2}
!2 = !{!"Debian clang version 19.1.7 (3~deb12u1)"}
!3 = !{!4, !4, i64 0}
!4 = !{!"omnipotent char", !5, i64 0}
!5 = !{!"Simple C/C++ TBAA"}
!6 = distinct !{!6, !7}
!7 = !{!"llvm.loop.mustprogress"}
!8 = !{!9, !10, i64 12}
!9 = !{!"", !4, i64 0, !10, i64 8, !10, i64 12, !10, i64 16}
!10 = !{!"int", !4, i64 0}
!11 = !{!9, !10, i64 8}
!12 = distinct !{!12, !7}
!13 = distinct !{!13, !7}
!14 = !{!9, !10, i64 16}
!15 = distinct !{!15, !7}
!16 = distinct !{!16, !7}
