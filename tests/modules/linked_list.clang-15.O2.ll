; ModuleID = 'linked_list.c'
source_filename = "linked_list.c"
target datalayout = "e-m:e-p270:32:32-p271:32:32-p272:64:64-i64:64-f80:128-n8:16:32:64-S128"
target triple = "x86_64-pc-linux-gnu"

%struct.list = type { ptr, i32, %union.pthread_mutex_t }
%union.pthread_mutex_t = type { %struct.__pthread_mutex_s }
%struct.__pthread_mutex_s = type { i32, i32, i32, i32, i32, i16, i16, %struct.__pthread_internal_list }
%struct.__pthread_internal_list = type { ptr, ptr }
%struct.link = type { ptr, i32 }

@.str = private unnamed_addr constant [4 x i8] c"%u:\00", align 1
@.str.1 = private unnamed_addr constant [4 x i8] c" %d\00", align 1
@stdout = external local_unnamed_addr global ptr, align 8

; Function Attrs: nounwind uwtable
define dso_local i32 @main() local_unnamed_addr #0 {
  %1 = alloca i64, align 8
  %2 = alloca i64, align 8
  %3 = tail call noalias dereferenceable_or_null(56) ptr @calloc(i64 noundef 1, i64 noundef 56) #8
  call void @llvm.lifetime.start.p0(i64 8, ptr nonnull %1) #9
  call void @llvm.lifetime.start.p0(i64 8, ptr nonnull %2) #9
  %4 = call i32 @pthread_create(ptr noundef nonnull %1, ptr noundef null, ptr noundef nonnull @insert_odd, ptr noundef %3) #9
  %5 = call i32 @pthread_create(ptr noundef nonnull %2, ptr noundef null, ptr noundef nonnull @insert_even, ptr noundef %3) #9
  %6 = load i64, ptr %1, align 8, !tbaa !5
  %7 = call i32 @pthread_join(i64 noundef %6, ptr noundef null) #9
  %8 = load i64, ptr %2, align 8, !tbaa !5
  %9 = call i32 @pthread_join(i64 noundef %8, ptr noundef null) #9
  %10 = getelementptr inbounds %struct.list, ptr %3, i64 0, i32 1
  %11 = load i32, ptr %10, align 8, !tbaa !9
  %12 = call i32 (ptr, ...) @printf(ptr noundef nonnull @.str, i32 noundef %11)
  %13 = load ptr, ptr %3, align 8, !tbaa !13
  %14 = icmp eq ptr %13, null
  br i1 %14, label %32, label %15

15:                                               ; preds = %0, %15
  %16 = phi ptr [ %28, %15 ], [ %13, %0 ]
  %17 = phi i32 [ %27, %15 ], [ 1, %0 ]
  %18 = phi i32 [ %24, %15 ], [ -1, %0 ]
  %19 = load ptr, ptr %16, align 8, !tbaa !14
  store ptr %19, ptr %3, align 8, !tbaa !13
  %20 = getelementptr inbounds %struct.link, ptr %16, i64 0, i32 1
  %21 = load i32, ptr %20, align 8, !tbaa !16
  %22 = call i32 (ptr, ...) @printf(ptr noundef nonnull @.str.1, i32 noundef %21)
  %23 = icmp ne i32 %17, 0
  %24 = load i32, ptr %20, align 8, !tbaa !16
  %25 = icmp slt i32 %18, %24
  %26 = select i1 %23, i1 %25, i1 false
  %27 = zext i1 %26 to i32
  call void @free(ptr noundef nonnull %16) #9
  %28 = load ptr, ptr %3, align 8, !tbaa !13
  %29 = icmp eq ptr %28, null
  br i1 %29, label %30, label %15, !llvm.loop !17

30:                                               ; preds = %15
  %31 = xor i32 %27, 1
  br label %32

32:                                               ; preds = %30, %0
  %33 = phi i32 [ 0, %0 ], [ %31, %30 ]
  %34 = load ptr, ptr @stdout, align 8, !tbaa !19
  %35 = call i32 @putc(i32 noundef 10, ptr noundef %34)
  call void @free(ptr noundef nonnull %3) #9
  call void @llvm.lifetime.end.p0(i64 8, ptr nonnull %2) #9
  call void @llvm.lifetime.end.p0(i64 8, ptr nonnull %1) #9
  ret i32 %33
}

; Function Attrs: argmemonly mustprogress nocallback nofree nosync nounwind willreturn
declare void @llvm.lifetime.start.p0(i64 immarg, ptr nocapture) #1

; Function Attrs: inaccessiblememonly mustprogress nofree nounwind willreturn allockind("alloc,zeroed") allocsize(0,1)
declare noalias noundef ptr @calloc(i64 noundef, i64 noundef) local_unnamed_addr #2

; Function Attrs: nounwind
declare i32 @pthread_create(ptr noundef, ptr noundef, ptr noundef, ptr noundef) local_unnamed_addr #3

; Function Attrs: nounwind uwtable
define internal noalias ptr @insert_odd(ptr noundef %0) #0 {
  %2 = getelementptr inbounds %struct.list, ptr %0, i64 0, i32 2
  %3 = getelementptr inbounds %struct.list, ptr %0, i64 0, i32 1
  %4 = tail call noalias dereferenceable_or_null(16) ptr @malloc(i64 noundef 16) #10
  %5 = icmp eq ptr %4, null
  br i1 %5, label %21, label %6

6:                                                ; preds = %1
  %7 = getelementptr inbounds %struct.link, ptr %4, i64 0, i32 1
  store i32 1, ptr %7, align 8, !tbaa !16
  %8 = tail call i32 @pthread_mutex_lock(ptr noundef nonnull %2) #9
  br label %9

9:                                                ; preds = %13, %6
  %10 = phi ptr [ %0, %6 ], [ %11, %13 ]
  %11 = load ptr, ptr %10, align 8, !tbaa !19
  %12 = icmp eq ptr %11, null
  br i1 %12, label %17, label %13

13:                                               ; preds = %9
  %14 = getelementptr inbounds %struct.link, ptr %11, i64 0, i32 1
  %15 = load i32, ptr %14, align 8, !tbaa !16
  %16 = icmp slt i32 %15, 1
  br i1 %16, label %9, label %17, !llvm.loop !20

17:                                               ; preds = %13, %9
  store ptr %11, ptr %4, align 8, !tbaa !14
  store ptr %4, ptr %10, align 8, !tbaa !19
  %18 = load i32, ptr %3, align 8, !tbaa !9
  %19 = add i32 %18, 1
  store i32 %19, ptr %3, align 8, !tbaa !9
  %20 = tail call i32 @pthread_mutex_unlock(ptr noundef nonnull %2) #9
  br label %21

21:                                               ; preds = %1, %17
  %22 = tail call noalias dereferenceable_or_null(16) ptr @malloc(i64 noundef 16) #10
  %23 = icmp eq ptr %22, null
  br i1 %23, label %39, label %24

24:                                               ; preds = %21
  %25 = getelementptr inbounds %struct.link, ptr %22, i64 0, i32 1
  store i32 3, ptr %25, align 8, !tbaa !16
  %26 = tail call i32 @pthread_mutex_lock(ptr noundef nonnull %2) #9
  br label %27

27:                                               ; preds = %31, %24
  %28 = phi ptr [ %0, %24 ], [ %29, %31 ]
  %29 = load ptr, ptr %28, align 8, !tbaa !19
  %30 = icmp eq ptr %29, null
  br i1 %30, label %35, label %31

31:                                               ; preds = %27
  %32 = getelementptr inbounds %struct.link, ptr %29, i64 0, i32 1
  %33 = load i32, ptr %32, align 8, !tbaa !16
  %34 = icmp slt i32 %33, 3
  br i1 %34, label %27, label %35, !llvm.loop !20

35:                                               ; preds = %31, %27
  store ptr %29, ptr %22, align 8, !tbaa !14
  store ptr %22, ptr %28, align 8, !tbaa !19
  %36 = load i32, ptr %3, align 8, !tbaa !9
  %37 = add i32 %36, 1
  store i32 %37, ptr %3, align 8, !tbaa !9
  %38 = tail call i32 @pthread_mutex_unlock(ptr noundef nonnull %2) #9
  br label %39

39:                                               ; preds = %35, %21
  %40 = tail call noalias dereferenceable_or_null(16) ptr @malloc(i64 noundef 16) #10
  %41 = icmp eq ptr %40, null
  br i1 %41, label %57, label %42

42:                                               ; preds = %39
  %43 = getelementptr inbounds %struct.link, ptr %40, i64 0, i32 1
  store i32 5, ptr %43, align 8, !tbaa !16
  %44 = tail call i32 @pthread_mutex_lock(ptr noundef nonnull %2) #9
  br label %45

45:                                               ; preds = %49, %42
  %46 = phi ptr [ %0, %42 ], [ %47, %49 ]
  %47 = load ptr, ptr %46, align 8, !tbaa !19
  %48 = icmp eq ptr %47, null
  br i1 %48, label %53, label %49

49:                                               ; preds = %45
  %50 = getelementptr inbounds %struct.link, ptr %47, i64 0, i32 1
  %51 = load i32, ptr %50, align 8, !tbaa !16
  %52 = icmp slt i32 %51, 5
  br i1 %52, label %45, label %53, !llvm.loop !20

53:                                               ; preds = %49, %45
  store ptr %47, ptr %40, align 8, !tbaa !14
  store ptr %40, ptr %46, align 8, !tbaa !19
  %54 = load i32, ptr %3, align 8, !tbaa !9
  %55 = add i32 %54, 1
  store i32 %55, ptr %3, align 8, !tbaa !9
  %56 = tail call i32 @pthread_mutex_unlock(ptr noundef nonnull %2) #9
  br label %57

57:                                               ; preds = %53, %39
  %58 = tail call noalias dereferenceable_or_null(16) ptr @malloc(i64 noundef 16) #10
  %59 = icmp eq ptr %58, null
  br i1 %59, label %75, label %60

60:                                               ; preds = %57
  %61 = getelementptr inbounds %struct.link, ptr %58, i64 0, i32 1
  store i32 7, ptr %61, align 8, !tbaa !16
  %62 = tail call i32 @pthread_mutex_lock(ptr noundef nonnull %2) #9
  br label %63

63:                                               ; preds = %67, %60
  %64 = phi ptr [ %0, %60 ], [ %65, %67 ]
  %65 = load ptr, ptr %64, align 8, !tbaa !19
  %66 = icmp eq ptr %65, null
  br i1 %66, label %71, label %67

67:                                               ; preds = %63
  %68 = getelementptr inbounds %struct.link, ptr %65, i64 0, i32 1
  %69 = load i32, ptr %68, align 8, !tbaa !16
  %70 = icmp slt i32 %69, 7
  br i1 %70, label %63, label %71, !llvm.loop !20

71:                                               ; preds = %67, %63
  store ptr %65, ptr %58, align 8, !tbaa !14
  store ptr %58, ptr %64, align 8, !tbaa !19
  %72 = load i32, ptr %3, align 8, !tbaa !9
  %73 = add i32 %72, 1
  store i32 %73, ptr %3, align 8, !tbaa !9
  %74 = tail call i32 @pthread_mutex_unlock(ptr noundef nonnull %2) #9
  br label %75

75:                                               ; preds = %71, %57
  ret ptr null
}

; Function Attrs: nounwind uwtable
define internal noalias ptr @insert_even(ptr noundef %0) #0 {
  %2 = getelementptr inbounds %struct.list, ptr %0, i64 0, i32 2
  %3 = getelementptr inbounds %struct.list, ptr %0, i64 0, i32 1
  %4 = tail call noalias dereferenceable_or_null(16) ptr @malloc(i64 noundef 16) #10
  %5 = icmp eq ptr %4, null
  br i1 %5, label %21, label %6

6:                                                ; preds = %1
  %7 = getelementptr inbounds %struct.link, ptr %4, i64 0, i32 1
  store i32 6, ptr %7, align 8, !tbaa !16
  %8 = tail call i32 @pthread_mutex_lock(ptr noundef nonnull %2) #9
  br label %9

9:                                                ; preds = %13, %6
  %10 = phi ptr [ %0, %6 ], [ %11, %13 ]
  %11 = load ptr, ptr %10, align 8, !tbaa !19
  %12 = icmp eq ptr %11, null
  br i1 %12, label %17, label %13

13:                                               ; preds = %9
  %14 = getelementptr inbounds %struct.link, ptr %11, i64 0, i32 1
  %15 = load i32, ptr %14, align 8, !tbaa !16
  %16 = icmp slt i32 %15, 6
  br i1 %16, label %9, label %17, !llvm.loop !20

17:                                               ; preds = %13, %9
  store ptr %11, ptr %4, align 8, !tbaa !14
  store ptr %4, ptr %10, align 8, !tbaa !19
  %18 = load i32, ptr %3, align 8, !tbaa !9
  %19 = add i32 %18, 1
  store i32 %19, ptr %3, align 8, !tbaa !9
  %20 = tail call i32 @pthread_mutex_unlock(ptr noundef nonnull %2) #9
  br label %21

21:                                               ; preds = %1, %17
  %22 = tail call noalias dereferenceable_or_null(16) ptr @malloc(i64 noundef 16) #10
  %23 = icmp eq ptr %22, null
  br i1 %23, label %39, label %24

24:                                               ; preds = %21
  %25 = getelementptr inbounds %struct.link, ptr %22, i64 0, i32 1
  store i32 4, ptr %25, align 8, !tbaa !16
  %26 = tail call i32 @pthread_mutex_lock(ptr noundef nonnull %2) #9
  br label %27

27:                                               ; preds = %31, %24
  %28 = phi ptr [ %0, %24 ], [ %29, %31 ]
  %29 = load ptr, ptr %28, align 8, !tbaa !19
  %30 = icmp eq ptr %29, null
  br i1 %30, label %35, label %31

31:                                               ; preds = %27
  %32 = getelementptr inbounds %struct.link, ptr %29, i64 0, i32 1
  %33 = load i32, ptr %32, align 8, !tbaa !16
  %34 = icmp slt i32 %33, 4
  br i1 %34, label %27, label %35, !llvm.loop !20

35:                                               ; preds = %31, %27
  store ptr %29, ptr %22, align 8, !tbaa !14
  store ptr %22, ptr %28, align 8, !tbaa !19
  %36 = load i32, ptr %3, align 8, !tbaa !9
  %37 = add i32 %36, 1
  store i32 %37, ptr %3, align 8, !tbaa !9
  %38 = tail call i32 @pthread_mutex_unlock(ptr noundef nonnull %2) #9
  br label %39

39:                                               ; preds = %35, %21
  %40 = tail call noalias dereferenceable_or_null(16) ptr @malloc(i64 noundef 16) #10
  %41 = icmp eq ptr %40, null
  br i1 %41, label %57, label %42

42:                                               ; preds = %39
  %43 = getelementptr inbounds %struct.link, ptr %40, i64 0, i32 1
  store i32 2, ptr %43, align 8, !tbaa !16
  %44 = tail call i32 @pthread_mutex_lock(ptr noundef nonnull %2) #9
  br label %45

45:                                               ; preds = %49, %42
  %46 = phi ptr [ %0, %42 ], [ %47, %49 ]
  %47 = load ptr, ptr %46, align 8, !tbaa !19
  %48 = icmp eq ptr %47, null
  br i1 %48, label %53, label %49

49:                                               ; preds = %45
  %50 = getelementptr inbounds %struct.link, ptr %47, i64 0, i32 1
  %51 = load i32, ptr %50, align 8, !tbaa !16
  %52 = icmp slt i32 %51, 2
  br i1 %52, label %45, label %53, !llvm.loop !20

53:                                               ; preds = %49, %45
  store ptr %47, ptr %40, align 8, !tbaa !14
  store ptr %40, ptr %46, align 8, !tbaa !19
  %54 = load i32, ptr %3, align 8, !tbaa !9
  %55 = add i32 %54, 1
  store i32 %55, ptr %3, align 8, !tbaa !9
  %56 = tail call i32 @pthread_mutex_unlock(ptr noundef nonnull %2) #9
  br label %57

57:                                               ; preds = %53, %39
  %58 = tail call noalias dereferenceable_or_null(16) ptr @malloc(i64 noundef 16) #10
  %59 = icmp eq ptr %58, null
  br i1 %59, label %75, label %60

60:                                               ; preds = %57
  %61 = getelementptr inbounds %struct.link, ptr %58, i64 0, i32 1
  store i32 0, ptr %61, align 8, !tbaa !16
  %62 = tail call i32 @pthread_mutex_lock(ptr noundef nonnull %2) #9
  br label %63

63:                                               ; preds = %67, %60
  %64 = phi ptr [ %0, %60 ], [ %65, %67 ]
  %65 = load ptr, ptr %64, align 8, !tbaa !19
  %66 = icmp eq ptr %65, null
  br i1 %66, label %71, label %67

67:                                               ; preds = %63
  %68 = getelementptr inbounds %struct.link, ptr %65, i64 0, i32 1
  %69 = load i32, ptr %68, align 8, !tbaa !16
  %70 = icmp slt i32 %69, 0
  br i1 %70, label %63, label %71, !llvm.loop !20

71:                                               ; preds = %67, %63
  store ptr %65, ptr %58, align 8, !tbaa !14
  store ptr %58, ptr %64, align 8, !tbaa !19
  %72 = load i32, ptr %3, align 8, !tbaa !9
  %73 = add i32 %72, 1
  store i32 %73, ptr %3, align 8, !tbaa !9
  %74 = tail call i32 @pthread_mutex_unlock(ptr noundef nonnull %2) #9
  br label %75

75:                                               ; preds = %71, %57
  ret ptr null
}

declare i32 @pthread_join(i64 noundef, ptr noundef) local_unnamed_addr #4

; Function Attrs: nofree nounwind
declare noundef i32 @printf(ptr nocapture noundef readonly, ...) local_unnamed_addr #5

; Function Attrs: inaccessiblemem_or_argmemonly mustprogress nounwind willreturn allockind("free")
declare void @free(ptr allocptr nocapture noundef) local_unnamed_addr #6

; Function Attrs: argmemonly mustprogress nocallback nofree nosync nounwind willreturn
declare void @llvm.lifetime.end.p0(i64 immarg, ptr nocapture) #1

; Function Attrs: inaccessiblememonly mustprogress nofree nounwind willreturn allockind("alloc,uninitialized") allocsize(0)
declare noalias noundef ptr @malloc(i64 noundef) local_unnamed_addr #7

; Function Attrs: nounwind
declare i32 @pthread_mutex_lock(ptr noundef) local_unnamed_addr #3

; Function Attrs: nounwind
declare i32 @pthread_mutex_unlock(ptr noundef) local_unnamed_addr #3

; Function Attrs: nofree nounwind
declare noundef i32 @putc(i32 noundef, ptr nocapture noundef) local_unnamed_addr #5

attributes #0 = { nounwind uwtable "frame-pointer"="none" "min-legal-vector-width"="0" "no-trapping-math"="true" "stack-protector-buffer-size"="8" "target-cpu"="x86-64" "target-features"="+cx8,+fxsr,+mmx,+sse,+sse2,+x87" "tune-cpu"="generic" }
attributes #1 = { argmemonly mustprogress nocallback nofree nosync nounwind willreturn }
attributes #2 = { inaccessiblememonly mustprogress nofree nounwind willreturn allockind("alloc,zeroed") allocsize(0,1) "alloc-family"="malloc" "frame-pointer"="none" "no-trapping-math"="true" "stack-protector-buffer-size"="8" "target-cpu"="x86-64" "target-features"="+cx8,+fxsr,+mmx,+sse,+sse2,+x87" "tune-cpu"="generic" }
attributes #3 = { nounwind "frame-pointer"="none" "no-trapping-math"="true" "stack-protector-buffer-size"="8" "target-cpu"="x86-64" "target-features"="+cx8,+fxsr,+mmx,+sse,+sse2,+x87" "tune-cpu"="generic" }
attributes #4 = { "frame-pointer"="none" "no-trapping-math"="true" "stack-protector-buffer-size"="8" "target-cpu"="x86-64" "target-features"="+cx8,+fxsr,+mmx,+sse,+sse2,+x87" "tune-cpu"="generic" }
attributes #5 = { nofree nounwind "frame-pointer"="none" "no-trapping-math"="true" "stack-protector-buffer-size"="8" "target-cpu"="x86-64" "target-features"="+cx8,+fxsr,+mmx,+sse,+sse2,+x87" "tune-cpu"="generic" }
attributes #6 = { inaccessiblemem_or_argmemonly mustprogress nounwind willreturn allockind("free") "alloc-family"="malloc" "frame-pointer"="none" "no-trapping-math"="true" "stack-protector-buffer-size"="8" "target-cpu"="x86-64" "target-features"="+cx8,+fxsr,+mmx,+sse,+sse2,+x87" "tune-cpu"="generic" }
attributes #7 = { inaccessiblememonly mustprogress nofree nounwind willreturn allockind("alloc,uninitialized") allocsize(0) "alloc-family"="malloc" "frame-pointer"="none" "no-trapping-math"="true" "stack-protector-buffer-size"="8" "target-cpu"="x86-64" "target-features"="+cx8,+fxsr,+mmx,+sse,+sse2,+x87" "tune-cpu"="generic" }
attributes #8 = { nounwind allocsize(0,1) }
attributes #9 = { nounwind }
attributes #10 = { nounwind allocsize(0) }

!llvm.module.flags = !{!0, !1, !2, !3}
!llvm.ident = !{!4}

!0 = !{i32 1, !"wchar_size", i32 4}
!1 = !{i32 7, !"PIC Level", i32 2}
!2 = !{i32 7, !"PIE Level", i32 2}
!3 = !{i32 7, !"uwtable", i32 2}
!4 = !{!"Debian clang version 15.0.6"}
!5 = !{!6, !6, i64 0}
!6 = !{!"long", !7, i64 0}
!7 = !{!"omnipotent char", !8, i64 0}
!8 = !{!"Simple C/C++ TBAA"}
!9 = !{!10, !12, i64 8}
!10 = !{!"list", !11, i64 0, !12, i64 8, !7, i64 16}
!11 = !{!"any pointer", !7, i64 0}
!12 = !{!"int", !7, i64 0}
!13 = !{!10, !11, i64 0}
!14 = !{!15, !11, i64 0}
!15 = !{!"link", !11, i64 0, !12, i64 8}
!16 = !{!15, !12, i64 8}
!17 = distinct !{!17, !18}
!18 = !{!"llvm.loop.mustprogress"}
!19 = !{!11, !11, i64 0}
!20 = distinct !{!20, !18}
