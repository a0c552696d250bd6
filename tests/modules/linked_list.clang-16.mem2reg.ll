; ModuleID = '<stdin>'
source_filename = "linked_list.c"
target datalayout = "e-m:e-p270:32:32-p271:32:32-p272:64:64-i64:64-f80:128-n8:16:32:64-S128"
target triple = "x86_64-pc-linux-gnu"

%struct.list = type { ptr, i32, %union.pthread_mutex_t }
%union.pthread_mutex_t = type { %struct.__pthread_mutex_s }
%struct.__pthread_mutex_s = type { i32, i32, i32, i32, i32, i16, i16, %struct.__pthread_internal_list }
%struct.__pthread_internal_list = type { ptr, ptr }
%struct.link = type { ptr, i32 }

@.str = private unnamed_addr constant [4 x i8] c"%u:\00", align 1
@.str.1 = private unnamed_addr constant [4 x i8] c" %d\00", align 1

; Function Attrs: noinline nounwind uwtable
define dso_local i32 @main() #0 {
  %1 = alloca i64, align 8
  %2 = alloca i64, align 8
  %3 = call noalias ptr @calloc(i64 noundef 1, i64 noundef 56) #5
  %4 = call i32 @pthread_create(ptr noundef %1, ptr noundef null, ptr noundef @insert_odd, ptr noundef %3) #6
  %5 = call i32 @pthread_create(ptr noundef %2, ptr noundef null, ptr noundef @insert_even, ptr noundef %3) #6
  %6 = load i64, ptr %1, align 8
  %7 = call i32 @pthread_join(i64 noundef %6, ptr noundef null)
  %8 = load i64, ptr %2, align 8
  %9 = call i32 @pthread_join(i64 noundef %8, ptr noundef null)
  %10 = getelementptr inbounds %struct.list, ptr %3, i32 0, i32 1
  %11 = load i32, ptr %10, align 8
  %12 = call i32 (ptr, ...) @printf(ptr noundef @.str, i32 noundef %11)
  br label %13

13:                                               ; preds = %31, %0
  %.01 = phi i32 [ 1, %0 ], [ %33, %31 ]
  %.0 = phi i32 [ -1, %0 ], [ %35, %31 ]
  %14 = getelementptr inbounds %struct.list, ptr %3, i32 0, i32 0
  %15 = load ptr, ptr %14, align 8
  %16 = icmp ne ptr %15, null
  br i1 %16, label %17, label %36

17:                                               ; preds = %13
  %18 = getelementptr inbounds %struct.list, ptr %3, i32 0, i32 0
  %19 = load ptr, ptr %18, align 8
  %20 = getelementptr inbounds %struct.link, ptr %19, i32 0, i32 0
  %21 = load ptr, ptr %20, align 8
  %22 = getelementptr inbounds %struct.list, ptr %3, i32 0, i32 0
  store ptr %21, ptr %22, align 8
  %23 = getelementptr inbounds %struct.link, ptr %19, i32 0, i32 1
  %24 = load i32, ptr %23, align 8
  %25 = call i32 (ptr, ...) @printf(ptr noundef @.str.1, i32 noundef %24)
  %26 = icmp ne i32 %.01, 0
  br i1 %26, label %27, label %31

27:                                               ; preds = %17
  %28 = getelementptr inbounds %struct.link, ptr %19, i32 0, i32 1
  %29 = load i32, ptr %28, align 8
  %30 = icmp slt i32 %.0, %29
  br label %31

31:                                               ; preds = %27, %17
  %32 = phi i1 [ false, %17 ], [ %30, %27 ]
  %33 = zext i1 %32 to i32
  %34 = getelementptr inbounds %struct.link, ptr %19, i32 0, i32 1
  %35 = load i32, ptr %34, align 8
  call void @free(ptr noundef %19) #6
  br label %13, !llvm.loop !6

36:                                               ; preds = %13
  %37 = call i32 @putchar(i32 noundef 10)
  call void @free(ptr noundef %3) #6
  %38 = icmp ne i32 %.01, 0
  %39 = zext i1 %38 to i64
  %40 = select i1 %38, i32 0, i32 1
  ret i32 %40
}

; Function Attrs: nounwind allocsize(0,1)
declare noalias ptr @calloc(i64 noundef, i64 noundef) #1

; Function Attrs: nounwind
declare i32 @pthread_create(ptr noundef, ptr noundef, ptr noundef, ptr noundef) #2

; Function Attrs: noinline nounwind uwtable
define internal ptr @insert_odd(ptr noundef %0) #0 {
  br label %2

2:                                                ; preds = %6, %1
  %.0 = phi i32 [ 1, %1 ], [ %7, %6 ]
  %3 = icmp slt i32 %.0, 8
  br i1 %3, label %4, label %8

4:                                                ; preds = %2
  %5 = call i32 @insert(ptr noundef %0, i32 noundef %.0)
  br label %6

6:                                                ; preds = %4
  %7 = add nsw i32 %.0, 2
  br label %2, !llvm.loop !8

8:                                                ; preds = %2
  ret ptr null
}

; Function Attrs: noinline nounwind uwtable
define internal ptr @insert_even(ptr noundef %0) #0 {
  br label %2

2:                                                ; preds = %6, %1
  %.0 = phi i32 [ 6, %1 ], [ %7, %6 ]
  %3 = icmp sge i32 %.0, 0
  br i1 %3, label %4, label %8

4:                                                ; preds = %2
  %5 = call i32 @insert(ptr noundef %0, i32 noundef %.0)
  br label %6

6:                                                ; preds = %4
  %7 = sub nsw i32 %.0, 2
  br label %2, !llvm.loop !9

8:                                                ; preds = %2
  ret ptr null
}

declare i32 @pthread_join(i64 noundef, ptr noundef) #3

declare i32 @printf(ptr noundef, ...) #3

; Function Attrs: nounwind
declare void @free(ptr noundef) #2

declare i32 @putchar(i32 noundef) #3

; Function Attrs: noinline nounwind uwtable
define internal i32 @insert(ptr noundef %0, i32 noundef %1) #0 {
  %3 = call noalias ptr @malloc(i64 noundef 16) #7
  %4 = getelementptr inbounds %struct.list, ptr %0, i32 0, i32 0
  %5 = icmp eq ptr %3, null
  br i1 %5, label %6, label %7

6:                                                ; preds = %2
  br label %32

7:                                                ; preds = %2
  %8 = getelementptr inbounds %struct.link, ptr %3, i32 0, i32 1
  store i32 %1, ptr %8, align 8
  %9 = getelementptr inbounds %struct.list, ptr %0, i32 0, i32 2
  %10 = call i32 @pthread_mutex_lock(ptr noundef %9) #6
  br label %11

11:                                               ; preds = %21, %7
  %.01 = phi ptr [ %4, %7 ], [ %23, %21 ]
  %12 = load ptr, ptr %.01, align 8
  %13 = icmp ne ptr %12, null
  br i1 %13, label %14, label %19

14:                                               ; preds = %11
  %15 = load ptr, ptr %.01, align 8
  %16 = getelementptr inbounds %struct.link, ptr %15, i32 0, i32 1
  %17 = load i32, ptr %16, align 8
  %18 = icmp slt i32 %17, %1
  br label %19

19:                                               ; preds = %14, %11
  %20 = phi i1 [ false, %11 ], [ %18, %14 ]
  br i1 %20, label %21, label %24

21:                                               ; preds = %19
  %22 = load ptr, ptr %.01, align 8
  %23 = getelementptr inbounds %struct.link, ptr %22, i32 0, i32 0
  br label %11, !llvm.loop !10

24:                                               ; preds = %19
  %25 = load ptr, ptr %.01, align 8
  %26 = getelementptr inbounds %struct.link, ptr %3, i32 0, i32 0
  store ptr %25, ptr %26, align 8
  store ptr %3, ptr %.01, align 8
  %27 = getelementptr inbounds %struct.list, ptr %0, i32 0, i32 1
  %28 = load i32, ptr %27, align 8
  %29 = add i32 %28, 1
  store i32 %29, ptr %27, align 8
  %30 = getelementptr inbounds %struct.list, ptr %0, i32 0, i32 2
  %31 = call i32 @pthread_mutex_unlock(ptr noundef %30) #6
  br label %32

32:                                               ; preds = %24, %6
  %.0 = phi i32 [ -1, %6 ], [ 0, %24 ]
  ret i32 %.0
}

; Function Attrs: nounwind allocsize(0)
declare noalias ptr @malloc(i64 noundef) #4

; Function Attrs: nounwind
declare i32 @pthread_mutex_lock(ptr noundef) #2

; Function Attrs: nounwind
declare i32 @pthread_mutex_unlock(ptr noundef) #2

attributes #0 = { noinline nounwind uwtable "frame-pointer"="all" "min-legal-vector-width"="0" "no-trapping-math"="true" "stack-protector-buffer-size"="8" "target-cpu"="x86-64" "target-features"="+cx8,+fxsr,+mmx,+sse,+sse2,+x87" "tune-cpu"="generic" }
attributes #1 = { nounwind allocsize(0,1) "frame-pointer"="all" "no-trapping-math"="true" "stack-protector-buffer-size"="8" "target-cpu"="x86-64" "target-features"="+cx8,+fxsr,+mmx,+sse,+sse2,+x87" "tune-cpu"="generic" }
attributes #2 = { nounwind "frame-pointer"="all" "no-trapping-math"="true" "stack-protector-buffer-size"="8" "target-cpu"="x86-64" "target-features"="+cx8,+fxsr,+mmx,+sse,+sse2,+x87" "tune-cpu"="generic" }
attributes #3 = { "frame-pointer"="all" "no-trapping-math"="true" "stack-protector-buffer-size"="8" "target-cpu"="x86-64" "target-features"="+cx8,+fxsr,+mmx,+sse,+sse2,+x87" "tune-cpu"="generic" }
attributes #4 = { nounwind allocsize(0) "frame-pointer"="all" "no-trapping-math"="true" "stack-protector-buffer-size"="8" "target-cpu"="x86-64" "target-features"="+cx8,+fxsr,+mmx,+sse,+sse2,+x87" "tune-cpu"="generic" }
attributes #5 = { nounwind allocsize(0,1) }
attributes #6 = { nounwind }
attributes #7 = { nounwind allocsize(0) }

!llvm.module.flags = !{!0, !1, !2, !3, !4}
!llvm.ident = !{!5}

!0 = !{i32 1, !"wchar_size", i32 4}
!1 = !{i32 8, !"PIC Level", i32 2}
!2 = !{i32 7, !"PIE Level", i32 2}
!3 = !{i32 7, !"uwtable", i32 2}
!4 = !{i32 7, !"frame-pointer", i32 2}
!5 = !{!"Debian clang version 16.0.6 (15~deb12u1)"}
!6 = distinct !{!6, !7}
!7 = !{!"llvm.loop.mustprogress"}
!8 = distinct !{!8, !7}
!9 = distinct !{!9, !7}
!10 = distinct !{!10, !7}
