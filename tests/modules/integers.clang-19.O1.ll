; ModuleID = 'integers.c'
source_filename = "integers.c"
target datalayout = "e-m:e-p270:32:32-p271:32:32-p272:64:64-i64:64-i128:128-f80:128-n8:16:32:64-S128"
target triple = "x86_64-pc-linux-gnu"

@divisor = internal unnamed_addr global i32 7, align 4
@.str = private unnamed_addr constant [13 x i8] c"%d %i %u %u\0A\00", align 1
@.str.1 = private unnamed_addr constant [13 x i8] c"%ld %lu %lx\0A\00", align 1
@mixed = internal unnamed_addr global i64 0, align 8
@.str.2 = private unnamed_addr constant [10 x i8] c"%d %d %d\0A\00", align 1
@.str.3 = private unnamed_addr constant [8 x i8] c"%d%d%d\0A\00", align 1

; Function Attrs: nounwind uwtable
define dso_local range(i32 0, 9) i32 @main() local_unnamed_addr #0 {
  %1 = alloca i64, align 8
  %2 = alloca i32, align 4
  call void @llvm.lifetime.start.p0(i64 8, ptr nonnull %1) #7
  %3 = tail call signext i8 @rc_input_i8(i32 noundef 0) #7
  %4 = tail call signext i16 @rc_input_i16(i32 noundef 1) #7
  call void @llvm.lifetime.start.p0(i64 4, ptr nonnull %2) #7
  %5 = tail call i32 @rc_input_i32(i32 noundef 2) #7
  store i32 %5, ptr %2, align 4, !tbaa !5
  %6 = tail call i64 @rc_input_i64(i32 noundef 3) #7
  %7 = sext i8 %3 to i32
  %8 = add i8 %3, -56
  %9 = udiv i16 %4, 3
  %10 = call i32 @pthread_create(ptr noundef nonnull %1, ptr noundef null, ptr noundef nonnull @divide, ptr noundef nonnull %2) #7
  %11 = call i32 @llvm.smin.i32(i32 %7, i32 9)
  %12 = call range(i32 1, 128) i32 @llvm.smax.i32(i32 %11, i32 1)
  store i32 %12, ptr @divisor, align 4, !tbaa !5
  %13 = load i64, ptr %1, align 8, !tbaa !9
  %14 = call i32 @pthread_join(i64 noundef %13, ptr noundef null) #7
  %15 = sext i16 %4 to i32
  %16 = zext i8 %8 to i32
  %17 = zext nneg i16 %9 to i32
  %18 = call i32 (ptr, ...) @printf(ptr noundef nonnull dereferenceable(1) @.str, i32 noundef %7, i32 noundef %15, i32 noundef %16, i32 noundef %17)
  %19 = ashr i64 %6, 3
  %20 = udiv i64 %6, 10
  %21 = load i64, ptr @mixed, align 8, !tbaa !9
  %22 = call i32 (ptr, ...) @printf(ptr noundef nonnull dereferenceable(1) @.str.1, i64 noundef %19, i64 noundef %20, i64 noundef %21)
  %23 = load i32, ptr %2, align 4, !tbaa !5
  %24 = xor i32 %23, -1
  %25 = and i32 %24, 255
  %26 = or i32 %24, 1
  %27 = call i32 (ptr, ...) @printf(ptr noundef nonnull dereferenceable(1) @.str.2, i32 noundef %23, i32 noundef %25, i32 noundef %26)
  %28 = icmp slt i32 %7, %16
  %29 = zext i1 %28 to i32
  %30 = load i64, ptr @mixed, align 8, !tbaa !9
  %31 = icmp ugt i64 %6, %30
  %32 = zext i1 %31 to i32
  %33 = load i32, ptr %2, align 4, !tbaa !5
  %34 = icmp sle i32 %33, %15
  %35 = zext i1 %34 to i32
  %36 = call i32 (ptr, ...) @printf(ptr noundef nonnull dereferenceable(1) @.str.3, i32 noundef %29, i32 noundef %32, i32 noundef %35)
  %37 = lshr i64 %6, 63
  %38 = trunc nuw nsw i64 %37 to i32
  %39 = and i32 %7, 3
  %40 = shl nuw nsw i32 %38, %39
  call void @llvm.lifetime.end.p0(i64 4, ptr nonnull %2) #7
  call void @llvm.lifetime.end.p0(i64 8, ptr nonnull %1) #7
  ret i32 %40
}

; Function Attrs: mustprogress nocallback nofree nosync nounwind willreturn memory(argmem: readwrite)
declare void @llvm.lifetime.start.p0(i64 immarg, ptr nocapture) #1

declare signext i8 @rc_input_i8(i32 noundef) local_unnamed_addr #2

declare signext i16 @rc_input_i16(i32 noundef) local_unnamed_addr #2

declare i32 @rc_input_i32(i32 noundef) local_unnamed_addr #2

declare i64 @rc_input_i64(i32 noundef) local_unnamed_addr #2

; Function Attrs: nounwind
declare i32 @pthread_create(ptr noundef, ptr noundef, ptr noundef, ptr noundef) local_unnamed_addr #3

; Function Attrs: mustprogress nofree norecurse nosync nounwind willreturn memory(readwrite, inaccessiblemem: none) uwtable
define internal noalias noundef ptr @divide(ptr nocapture noundef %0) #4 {
  %2 = load i32, ptr %0, align 4, !tbaa !5
  %3 = load i32, ptr @divisor, align 4, !tbaa !5
  %4 = sdiv i32 %2, %3
  %5 = srem i32 %2, %3
  %6 = add nsw i32 %5, %4
  store i32 %6, ptr %0, align 4, !tbaa !5
  %7 = zext i32 %6 to i64
  %8 = shl nuw nsw i64 %7, 13
  %9 = xor i64 %8, %7
  %10 = lshr i64 %9, 7
  %11 = xor i64 %10, %9
  %12 = shl nuw nsw i64 %11, 17
  %13 = xor i64 %12, %11
  store i64 %13, ptr @mixed, align 8, !tbaa !9
  ret ptr null
}

declare i32 @pthread_join(i64 noundef, ptr noundef) local_unnamed_addr #2

; Function Attrs: nofree nounwind
declare noundef i32 @printf(ptr nocapture noundef readonly, ...) local_unnamed_addr #5

; Function Attrs: mustprogress nocallback nofree nosync nounwind willreturn memory(argmem: readwrite)
declare void @llvm.lifetime.end.p0(i64 immarg, ptr nocapture) #1

; Function Attrs: nocallback nofree nosync nounwind speculatable willreturn memory(none)
declare i32 @llvm.smin.i32(i32, i32) #6

; Function Attrs: nocallback nofree nosync nounwind speculatable willreturn memory(none)
declare i32 @llvm.smax.i32(i32, i32) #6

attributes #0 = { nounwind uwtable "min-legal-vector-width"="0" "no-trapping-math"="true" "stack-protector-buffer-size"="8" "target-cpu"="x86-64" "target-features"="+cmov,+cx8,+fxsr,+mmx,+sse,+sse2,+x87" "tune-cpu"="generic" }
attributes #1 = { mustprogress nocallback nofree nosync nounwind willreturn memory(argmem: readwrite) }
attributes #2 = { "no-trapping-math"="true" "stack-protector-buffer-size"="8" "target-cpu"="x86-64" "target-features"="+cmov,+cx8,+fxsr,+mmx,+sse,+sse2,+x87" "tune-cpu"="generic" }
attributes #3 = { nounwind "no-trapping-math"="true" "stack-protector-buffer-size"="8" "target-cpu"="x86-64" "target-features"="+cmov,+cx8,+fxsr,+mmx,+sse,+sse2,+x87" "tune-cpu"="generic" }
attributes #4 = { mustprogress nofree norecurse nosync nounwind willreturn memory(readwrite, inaccessiblemem: none) uwtable "min-legal-vector-width"="0" "no-trapping-math"="true" "stack-protector-buffer-size"="8" "target-cpu"="x86-64" "target-features"="+cmov,+cx8,+fxsr,+mmx,+sse,+sse2,+x87" "tune-cpu"="generic" }
attributes #5 = { nofree nounwind "no-trapping-math"="true" "stack-protector-buffer-size"="8" "target-cpu"="x86-64" "target-features"="+cmov,+cx8,+fxsr,+mmx,+sse,+sse2,+x87" "tune-cpu"="generic" }
attributes #6 = { nocallback nofree nosync nounwind speculatable willreturn memory(none) }
attributes #7 = { nounwind }

!llvm.module.flags = !{!0, !1, !2, !3}
!llvm.ident = !{!4}

!0 = !{i32 1, !"wchar_size", i32 4}
!1 = !{i32 8, !"PIC Level", i32 2}
!2 = !{i32 7, !"PIE Level", i32 2}
!3 = !{i32 7, !"uwtable", i32 2}
!4 = !{!"Debian clang version 19.1.7 (3~deb12u1)"}
!5 = !{!6, !6, i64 0}
!6 = !{!"int", !7, i64 0}
!7 = !{!"omnipotent char", !8, i64 0}
!8 = !{!"Simple C/C++ TBAA"}
!9 = !{!10, !10, i64 0}
!10 = !{!"long", !7, i64 0}
