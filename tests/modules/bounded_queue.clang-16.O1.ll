; ModuleID = 'bounded_queue.c'
source_filename = "bounded_queue.c"
target datalayout = "e-m:e-p270:32:32-p271:32:32-p272:64:64-i64:64-f80:128-n8:16:32:64-S128"
target triple = "x86_64-pc-linux-gnu"

%struct.queue = type { [4 x i32], i32, i32, i8, %union.pthread_mutex_t, %union.pthread_cond_t, %union.pthread_cond_t }
%union.pthread_mutex_t = type { %struct.__pthread_mutex_s }
%struct.__pthread_mutex_s = type { i32, i32, i32, i32, i32, i16, i16, %struct.__pthread_internal_list }
%struct.__pthread_internal_list = type { ptr, ptr }
%union.pthread_cond_t = type { %struct.__pthread_cond_s }
%struct.__pthread_cond_s = type { %union.__atomic_wide_counter, %union.__atomic_wide_counter, [2 x i32], [2 x i32], i32, i32, [2 x i32] }
%union.__atomic_wide_counter = type { i64 }

@queue = internal global %struct.queue zeroinitializer, align 8
@.str = private unnamed_addr constant [5 x i8] c"%ld\0A\00", align 1

; Function Attrs: nounwind uwtable
define dso_local i32 @main() local_unnamed_addr #0 {
  %1 = alloca [2 x i64], align 16
  %2 = alloca i64, align 8
  %3 = alloca [2 x i32], align 8
  %4 = alloca i64, align 8
  call void @llvm.lifetime.start.p0(i64 16, ptr nonnull %1) #5
  call void @llvm.lifetime.start.p0(i64 8, ptr nonnull %2) #5
  call void @llvm.lifetime.start.p0(i64 8, ptr nonnull %3) #5
  store i64 858993459300, ptr %3, align 8
  call void @llvm.lifetime.start.p0(i64 8, ptr nonnull %4) #5
  store i64 0, ptr %4, align 8, !tbaa !5
  %5 = call i32 @pthread_create(ptr noundef nonnull %2, ptr noundef null, ptr noundef nonnull @consume, ptr noundef nonnull %4) #5
  %6 = call i32 @pthread_create(ptr noundef nonnull %1, ptr noundef null, ptr noundef nonnull @produce, ptr noundef nonnull %3) #5
  %7 = getelementptr inbounds [2 x i64], ptr %1, i64 0, i64 1
  %8 = getelementptr inbounds [2 x i32], ptr %3, i64 0, i64 1
  %9 = call i32 @pthread_create(ptr noundef nonnull %7, ptr noundef null, ptr noundef nonnull @produce, ptr noundef nonnull %8) #5
  %10 = load i64, ptr %1, align 16, !tbaa !5
  %11 = call i32 @pthread_join(i64 noundef %10, ptr noundef null) #5
  %12 = load i64, ptr %7, align 8, !tbaa !5
  %13 = call i32 @pthread_join(i64 noundef %12, ptr noundef null) #5
  %14 = call i32 @pthread_mutex_lock(ptr noundef nonnull getelementptr inbounds (%struct.queue, ptr @queue, i64 0, i32 4)) #5
  store i8 1, ptr getelementptr inbounds (%struct.queue, ptr @queue, i64 0, i32 3), align 8, !tbaa !9
  %15 = call i32 @pthread_cond_broadcast(ptr noundef nonnull getelementptr inbounds (%struct.queue, ptr @queue, i64 0, i32 5)) #5
  %16 = call i32 @pthread_mutex_unlock(ptr noundef nonnull getelementptr inbounds (%struct.queue, ptr @queue, i64 0, i32 4)) #5
  %17 = load i64, ptr %2, align 8, !tbaa !5
  %18 = call i32 @pthread_join(i64 noundef %17, ptr noundef null) #5
  %19 = load i64, ptr %4, align 8, !tbaa !5
  %20 = call i32 (ptr, ...) @printf(ptr noundef nonnull dereferenceable(1) @.str, i64 noundef %19)
  call void @llvm.lifetime.end.p0(i64 8, ptr nonnull %4) #5
  call void @llvm.lifetime.end.p0(i64 8, ptr nonnull %3) #5
  call void @llvm.lifetime.end.p0(i64 8, ptr nonnull %2) #5
  call void @llvm.lifetime.end.p0(i64 16, ptr nonnull %1) #5
  ret i32 0
}

; Function Attrs: mustprogress nocallback nofree nosync nounwind willreturn memory(argmem: readwrite)
declare void @llvm.lifetime.start.p0(i64 immarg, ptr nocapture) #1

; Function Attrs: nounwind
declare i32 @pthread_create(ptr noundef, ptr noundef, ptr noundef, ptr noundef) local_unnamed_addr #2

; Function Attrs: nounwind uwtable
define internal ptr @consume(ptr noundef returned %0) #0 {
  br label %2

2:                                                ; preds = %33, %1
  %3 = phi i32 [ undef, %1 ], [ %31, %33 ]
  %4 = tail call i32 @pthread_mutex_lock(ptr noundef nonnull getelementptr inbounds (%struct.queue, ptr @queue, i64 0, i32 4)) #5
  %5 = load i32, ptr getelementptr inbounds (%struct.queue, ptr @queue, i64 0, i32 2), align 4, !tbaa !13
  %6 = icmp eq i32 %5, 0
  %7 = load i8, ptr getelementptr inbounds (%struct.queue, ptr @queue, i64 0, i32 3), align 8
  %8 = icmp eq i8 %7, 0
  %9 = select i1 %6, i1 %8, i1 false
  br i1 %9, label %10, label %17

10:                                               ; preds = %2, %10
  %11 = tail call i32 @pthread_cond_wait(ptr noundef nonnull getelementptr inbounds (%struct.queue, ptr @queue, i64 0, i32 5), ptr noundef nonnull getelementptr inbounds (%struct.queue, ptr @queue, i64 0, i32 4)) #5
  %12 = load i32, ptr getelementptr inbounds (%struct.queue, ptr @queue, i64 0, i32 2), align 4, !tbaa !13
  %13 = icmp eq i32 %12, 0
  %14 = load i8, ptr getelementptr inbounds (%struct.queue, ptr @queue, i64 0, i32 3), align 8
  %15 = icmp eq i8 %14, 0
  %16 = select i1 %13, i1 %15, i1 false
  br i1 %16, label %10, label %17, !llvm.loop !14

17:                                               ; preds = %10, %2
  %18 = phi i32 [ %5, %2 ], [ %12, %10 ]
  %19 = icmp eq i32 %18, 0
  br i1 %19, label %30, label %20

20:                                               ; preds = %17
  %21 = load i32, ptr getelementptr inbounds (%struct.queue, ptr @queue, i64 0, i32 1), align 8, !tbaa !17
  %22 = zext i32 %21 to i64
  %23 = getelementptr inbounds [4 x i32], ptr @queue, i64 0, i64 %22
  %24 = load i32, ptr %23, align 4, !tbaa !18
  %25 = add i32 %21, 1
  %26 = and i32 %25, 3
  store i32 %26, ptr getelementptr inbounds (%struct.queue, ptr @queue, i64 0, i32 1), align 8, !tbaa !17
  %27 = load i32, ptr getelementptr inbounds (%struct.queue, ptr @queue, i64 0, i32 2), align 4, !tbaa !13
  %28 = add i32 %27, -1
  store i32 %28, ptr getelementptr inbounds (%struct.queue, ptr @queue, i64 0, i32 2), align 4, !tbaa !13
  %29 = tail call i32 @pthread_cond_signal(ptr noundef nonnull getelementptr inbounds (%struct.queue, ptr @queue, i64 0, i32 6)) #5
  br label %30

30:                                               ; preds = %17, %20
  %31 = phi i32 [ %24, %20 ], [ %3, %17 ]
  %32 = tail call i32 @pthread_mutex_unlock(ptr noundef nonnull getelementptr inbounds (%struct.queue, ptr @queue, i64 0, i32 4)) #5
  br i1 %19, label %37, label %33

33:                                               ; preds = %30
  %34 = sext i32 %31 to i64
  %35 = load i64, ptr %0, align 8, !tbaa !5
  %36 = add nsw i64 %35, %34
  store i64 %36, ptr %0, align 8, !tbaa !5
  br label %2, !llvm.loop !19

37:                                               ; preds = %30
  ret ptr %0
}

; Function Attrs: nounwind uwtable
define internal noalias ptr @produce(ptr nocapture noundef readonly %0) #0 {
  %2 = load i32, ptr %0, align 4, !tbaa !18
  br label %4

3:                                                ; preds = %14
  ret ptr null

4:                                                ; preds = %1, %14
  %5 = phi i32 [ 0, %1 ], [ %24, %14 ]
  %6 = add nsw i32 %5, %2
  %7 = tail call i32 @pthread_mutex_lock(ptr noundef nonnull getelementptr inbounds (%struct.queue, ptr @queue, i64 0, i32 4)) #5
  %8 = load i32, ptr getelementptr inbounds (%struct.queue, ptr @queue, i64 0, i32 2), align 4, !tbaa !13
  %9 = icmp eq i32 %8, 4
  br i1 %9, label %10, label %14

10:                                               ; preds = %4, %10
  %11 = tail call i32 @pthread_cond_wait(ptr noundef nonnull getelementptr inbounds (%struct.queue, ptr @queue, i64 0, i32 6), ptr noundef nonnull getelementptr inbounds (%struct.queue, ptr @queue, i64 0, i32 4)) #5
  %12 = load i32, ptr getelementptr inbounds (%struct.queue, ptr @queue, i64 0, i32 2), align 4, !tbaa !13
  %13 = icmp eq i32 %12, 4
  br i1 %13, label %10, label %14, !llvm.loop !20

14:                                               ; preds = %10, %4
  %15 = phi i32 [ %8, %4 ], [ %12, %10 ]
  %16 = load i32, ptr getelementptr inbounds (%struct.queue, ptr @queue, i64 0, i32 1), align 8, !tbaa !17
  %17 = add i32 %16, %15
  %18 = and i32 %17, 3
  %19 = zext i32 %18 to i64
  %20 = getelementptr inbounds [4 x i32], ptr @queue, i64 0, i64 %19
  store i32 %6, ptr %20, align 4, !tbaa !18
  %21 = add i32 %15, 1
  store i32 %21, ptr getelementptr inbounds (%struct.queue, ptr @queue, i64 0, i32 2), align 4, !tbaa !13
  %22 = tail call i32 @pthread_cond_signal(ptr noundef nonnull getelementptr inbounds (%struct.queue, ptr @queue, i64 0, i32 5)) #5
  %23 = tail call i32 @pthread_mutex_unlock(ptr noundef nonnull getelementptr inbounds (%struct.queue, ptr @queue, i64 0, i32 4)) #5
  %24 = add nuw nsw i32 %5, 1
  %25 = icmp eq i32 %24, 6
  br i1 %25, label %3, label %4, !llvm.loop !21
}

declare i32 @pthread_join(i64 noundef, ptr noundef) local_unnamed_addr #3

; Function Attrs: nounwind
declare i32 @pthread_mutex_lock(ptr noundef) local_unnamed_addr #2

; Function Attrs: nounwind
declare i32 @pthread_cond_broadcast(ptr noundef) local_unnamed_addr #2

; Function Attrs: nounwind
declare i32 @pthread_mutex_unlock(ptr noundef) local_unnamed_addr #2

; Function Attrs: nofree nounwind
declare noundef i32 @printf(ptr nocapture noundef readonly, ...) local_unnamed_addr #4

; Function Attrs: mustprogress nocallback nofree nosync nounwind willreturn memory(argmem: readwrite)
declare void @llvm.lifetime.end.p0(i64 immarg, ptr nocapture) #1

declare i32 @pthread_cond_wait(ptr noundef, ptr noundef) local_unnamed_addr #3

; Function Attrs: nounwind
declare i32 @pthread_cond_signal(ptr noundef) local_unnamed_addr #2

attributes #0 = { nounwind uwtable "min-legal-vector-width"="0" "no-trapping-math"="true" "stack-protector-buffer-size"="8" "target-cpu"="x86-64" "target-features"="+cx8,+fxsr,+mmx,+sse,+sse2,+x87" "tune-cpu"="generic" }
attributes #1 = { mustprogress nocallback nofree nosync nounwind willreturn memory(argmem: readwrite) }
attributes #2 = { nounwind "no-trapping-math"="true" "stack-protector-buffer-size"="8" "target-cpu"="x86-64" "target-features"="+cx8,+fxsr,+mmx,+sse,+sse2,+x87" "tune-cpu"="generic" }
attributes #3 = { "no-trapping-math"="true" "stack-protector-buffer-size"="8" "target-cpu"="x86-64" "target-features"="+cx8,+fxsr,+mmx,+sse,+sse2,+x87" "tune-cpu"="generic" }
attributes #4 = { nofree nounwind "no-trapping-math"="true" "stack-protector-buffer-size"="8" "target-cpu"="x86-64" "target-features"="+cx8,+fxsr,+mmx,+sse,+sse2,+x87" "tune-cpu"="generic" }
attributes #5 = { nounwind }

!llvm.module.flags = !{!0, !1, !2, !3}
!llvm.ident = !{!4}

!0 = !{i32 1, !"wchar_size", i32 4}
!1 = !{i32 8, !"PIC Level", i32 2}
!2 = !{i32 7, !"PIE Level", i32 2}
!3 = !{i32 7, !"uwtable", i32 2}
!4 = !{!"Debian clang version 16.0.6 (15~deb12u1)"}
!5 = !{!6, !6, i64 0}
!6 = !{!"long", !7, i64 0}
!7 = !{!"omnipotent char", !8, i64 0}
!8 = !{!"Simple C/C++ TBAA"}
!9 = !{!10, !12, i64 24}
!10 = !{!"queue", !7, i64 0, !11, i64 16, !11, i64 20, !12, i64 24, !7, i64 32, !7, i64 72, !7, i64 120}
!11 = !{!"int", !7, i64 0}
!12 = !{!"_Bool", !7, i64 0}
!13 = !{!10, !11, i64 20}
!14 = distinct !{!14, !15, !16}
!15 = !{!"llvm.loop.mustprogress"}
!16 = !{!"llvm.loop.unroll.disable"}
!17 = !{!10, !11, i64 16}
!18 = !{!11, !11, i64 0}
!19 = distinct !{!19, !15, !16}
!20 = distinct !{!20, !15, !16}
!21 = distinct !{!21, !15, !16}
