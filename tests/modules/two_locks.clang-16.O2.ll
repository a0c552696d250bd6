; ModuleID = 'two_locks.c'
source_filename = "two_locks.c"
target datalayout = "e-m:e-p270:32:32-p271:32:32-p272:64:64-i64:64-f80:128-n8:16:32:64-S128"
target triple = "x86_64-pc-linux-gnu"

%struct.account = type { %union.pthread_mutex_t, i64 }
%union.pthread_mutex_t = type { %struct.__pthread_mutex_s }
%struct.__pthread_mutex_s = type { i32, i32, i32, i32, i32, i16, i16, %struct.__pthread_internal_list }
%struct.__pthread_internal_list = type { ptr, ptr }
%struct.transfer = type { ptr, ptr, i64 }

@savings = internal global %struct.account { %union.pthread_mutex_t zeroinitializer, i64 100 }, align 8
@current = internal global %struct.account { %union.pthread_mutex_t zeroinitializer, i64 50 }, align 8
@__const.main.transfers = private unnamed_addr constant [2 x %struct.transfer] [%struct.transfer { ptr @savings, ptr @current, i64 30 }, %struct.transfer { ptr @current, ptr @savings, i64 20 }], align 16
@.str = private unnamed_addr constant [41 x i8] c"savings.balance + current.balance == 150\00", align 1
@.str.1 = private unnamed_addr constant [12 x i8] c"two_locks.c\00", align 1
@__PRETTY_FUNCTION__.main = private unnamed_addr constant [15 x i8] c"int main(void)\00", align 1
@.str.2 = private unnamed_addr constant [9 x i8] c"%ld %ld\0A\00", align 1

; Function Attrs: nounwind uwtable
define dso_local i32 @main() local_unnamed_addr #0 {
  %1 = alloca [2 x i64], align 16
  %2 = alloca [2 x %struct.transfer], align 16
  call void @llvm.lifetime.start.p0(i64 16, ptr nonnull %1) #7
  call void @llvm.lifetime.start.p0(i64 48, ptr nonnull %2) #7
  call void @llvm.memcpy.p0.p0.i64(ptr noundef nonnull align 16 dereferenceable(48) %2, ptr noundef nonnull align 16 dereferenceable(48) @__const.main.transfers, i64 48, i1 false)
  %3 = call i32 @pthread_create(ptr noundef nonnull %1, ptr noundef null, ptr noundef nonnull @move, ptr noundef nonnull %2) #7
  %4 = getelementptr inbounds i64, ptr %1, i64 1
  %5 = getelementptr inbounds %struct.transfer, ptr %2, i64 1
  %6 = call i32 @pthread_create(ptr noundef nonnull %4, ptr noundef null, ptr noundef nonnull @move, ptr noundef nonnull %5) #7
  %7 = load i64, ptr %1, align 16, !tbaa !5
  %8 = call i32 @pthread_join(i64 noundef %7, ptr noundef null) #7
  %9 = load i64, ptr %4, align 8, !tbaa !5
  %10 = call i32 @pthread_join(i64 noundef %9, ptr noundef null) #7
  %11 = load i64, ptr getelementptr inbounds (%struct.account, ptr @savings, i64 0, i32 1), align 8, !tbaa !9
  %12 = load i64, ptr getelementptr inbounds (%struct.account, ptr @current, i64 0, i32 1), align 8, !tbaa !9
  %13 = add nsw i64 %12, %11
  %14 = icmp eq i64 %13, 150
  br i1 %14, label %16, label %15

15:                                               ; preds = %0
  call void @__assert_fail(ptr noundef nonnull @.str, ptr noundef nonnull @.str.1, i32 noundef 43, ptr noundef nonnull @__PRETTY_FUNCTION__.main) #8
  unreachable

16:                                               ; preds = %0
  %17 = call i32 (ptr, ...) @printf(ptr noundef nonnull dereferenceable(1) @.str.2, i64 noundef %11, i64 noundef %12)
  call void @llvm.lifetime.end.p0(i64 48, ptr nonnull %2) #7
  call void @llvm.lifetime.end.p0(i64 16, ptr nonnull %1) #7
  ret i32 0
}

; Function Attrs: mustprogress nocallback nofree nosync nounwind willreturn memory(argmem: readwrite)
declare void @llvm.lifetime.start.p0(i64 immarg, ptr nocapture) #1

; Function Attrs: mustprogress nocallback nofree nounwind willreturn memory(argmem: readwrite)
declare void @llvm.memcpy.p0.p0.i64(ptr noalias nocapture writeonly, ptr noalias nocapture readonly, i64, i1 immarg) #2

; Function Attrs: nounwind
declare i32 @pthread_create(ptr noundef, ptr noundef, ptr noundef, ptr noundef) local_unnamed_addr #3

; Function Attrs: nounwind uwtable
define internal noalias ptr @move(ptr nocapture noundef readonly %0) #0 {
  %2 = load ptr, ptr %0, align 8, !tbaa !11
  %3 = tail call i32 @pthread_mutex_lock(ptr noundef %2) #7
  %4 = getelementptr inbounds %struct.transfer, ptr %0, i64 0, i32 1
  %5 = load ptr, ptr %4, align 8, !tbaa !14
  %6 = tail call i32 @pthread_mutex_lock(ptr noundef %5) #7
  %7 = load ptr, ptr %0, align 8, !tbaa !11
  %8 = getelementptr inbounds %struct.account, ptr %7, i64 0, i32 1
  %9 = load i64, ptr %8, align 8, !tbaa !9
  %10 = getelementptr inbounds %struct.transfer, ptr %0, i64 0, i32 2
  %11 = load i64, ptr %10, align 8, !tbaa !15
  %12 = icmp slt i64 %9, %11
  br i1 %12, label %13, label %15

13:                                               ; preds = %1
  %14 = load ptr, ptr %4, align 8, !tbaa !14
  br label %21

15:                                               ; preds = %1
  %16 = sub nsw i64 %9, %11
  store i64 %16, ptr %8, align 8, !tbaa !9
  %17 = load ptr, ptr %4, align 8, !tbaa !14
  %18 = getelementptr inbounds %struct.account, ptr %17, i64 0, i32 1
  %19 = load i64, ptr %18, align 8, !tbaa !9
  %20 = add nsw i64 %19, %11
  store i64 %20, ptr %18, align 8, !tbaa !9
  br label %21

21:                                               ; preds = %13, %15
  %22 = phi ptr [ %14, %13 ], [ %17, %15 ]
  %23 = tail call i32 @pthread_mutex_unlock(ptr noundef %22) #7
  %24 = load ptr, ptr %0, align 8, !tbaa !11
  %25 = tail call i32 @pthread_mutex_unlock(ptr noundef %24) #7
  ret ptr null
}

; Function Attrs: mustprogress nocallback nofree nosync nounwind willreturn memory(argmem: readwrite)
declare void @llvm.lifetime.end.p0(i64 immarg, ptr nocapture) #1

declare i32 @pthread_join(i64 noundef, ptr noundef) local_unnamed_addr #4

; Function Attrs: noreturn nounwind
declare void @__assert_fail(ptr noundef, ptr noundef, i32 noundef, ptr noundef) local_unnamed_addr #5

; Function Attrs: nofree nounwind
declare noundef i32 @printf(ptr nocapture noundef readonly, ...) local_unnamed_addr #6

; Function Attrs: nounwind
declare i32 @pthread_mutex_lock(ptr noundef) local_unnamed_addr #3

; Function Attrs: nounwind
declare i32 @pthread_mutex_unlock(ptr noundef) local_unnamed_addr #3

attributes #0 = { nounwind uwtable "min-legal-vector-width"="0" "no-trapping-math"="true" "stack-protector-buffer-size"="8" "target-cpu"="x86-64" "target-features"="+cx8,+fxsr,+mmx,+sse,+sse2,+x87" "tune-cpu"="generic" }
attributes #1 = { mustprogress nocallback nofree nosync nounwind willreturn memory(argmem: readwrite) }
attributes #2 = { mustprogress nocallback nofree nounwind willreturn memory(argmem: readwrite) }
attributes #3 = { nounwind "no-trapping-math"="true" "stack-protector-buffer-size"="8" "target-cpu"="x86-64" "target-features"="+cx8,+fxsr,+mmx,+sse,+sse2,+x87" "tune-cpu"="generic" }
attributes #4 = { "no-trapping-math"="true" "stack-protector-buffer-size"="8" "target-cpu"="x86-64" "target-features"="+cx8,+fxsr,+mmx,+sse,+sse2,+x87" "tune-cpu"="generic" }
attributes #5 = { noreturn nounwind "no-trapping-math"="true" "stack-protector-buffer-size"="8" "target-cpu"="x86-64" "target-features"="+cx8,+fxsr,+mmx,+sse,+sse2,+x87" "tune-cpu"="generic" }
attributes #6 = { nofree nounwind "no-trapping-math"="true" "stack-protector-buffer-size"="8" "target-cpu"="x86-64" "target-features"="+cx8,+fxsr,+mmx,+sse,+sse2,+x87" "tune-cpu"="generic" }
attributes #7 = { nounwind }
attributes #8 = { noreturn nounwind }

!llvm.module.flags = !{!0, !1, !2, !3}
!llvm.ident = !{!4}

!0 = !{i32 1, !"wchar_size", i32 4}
!1 = !{i32 8, !"PIC Level", i32 2}
!2 = !{i32 7, !"PIE Level", i32 2}
!3 = !{i32 7, !"uwtable", i32 2}
!4 = !{!"Debian clang version 16.0.6 (15~deb12u1)"}
!5 = !{!6, !6, i64 0}
!6 = !{!"long", !7, i64 0}
!7 = !{!"omnipotent char", !8, i64 0}
!8 = !{!"Simple C/C++ TBAA"}
!9 = !{!10, !6, i64 40}
!10 = !{!"account", !7, i64 0, !6, i64 40}
!11 = !{!12, !13, i64 0}
!12 = !{!"transfer", !13, i64 0, !13, i64 8, !6, i64 16}
!13 = !{!"any pointer", !7, i64 0}
!14 = !{!12, !13, i64 8}
!15 = !{!12, !6, i64 16}
