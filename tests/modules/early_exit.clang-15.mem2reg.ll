; ModuleID = '<stdin>'
source_filename = "early_exit.c"
target datalayout = "e-m:e-p270:32:32-p271:32:32-p272:64:64-i64:64-f80:128-n8:16:32:64-S128"
target triple = "x86_64-pc-linux-gnu"

@main.limit = internal global i32 6, align 4
@watcher = internal global i64 0, align 8
@.str = private unnamed_addr constant [13 x i8] c"progress %d\0A\00", align 1
@progress = internal global i32 0, align 4
@.str.1 = private unnamed_addr constant [10 x i8] c"limit %d\0A\00", align 1
@.str.2 = private unnamed_addr constant [26 x i8] c"pthread_self() != watcher\00", align 1
@.str.3 = private unnamed_addr constant [13 x i8] c"early_exit.c\00", align 1
@__PRETTY_FUNCTION__.work = private unnamed_addr constant [19 x i8] c"void *work(void *)\00", align 1

; Function Attrs: noinline nounwind uwtable
define dso_local i32 @main() #0 {
  %1 = alloca i64, align 8
  %2 = alloca ptr, align 8
  %3 = call i32 @pthread_create(ptr noundef @watcher, ptr noundef null, ptr noundef @watch, ptr noundef @main.limit) #6
  %4 = icmp ne i32 %3, 0
  br i1 %4, label %5, label %6

5:                                                ; preds = %0
  br label %16

6:                                                ; preds = %0
  %7 = call i32 @pthread_create(ptr noundef %1, ptr noundef null, ptr noundef @work, ptr noundef null) #6
  %8 = icmp ne i32 %7, 0
  br i1 %8, label %9, label %10

9:                                                ; preds = %6
  br label %16

10:                                               ; preds = %6
  %11 = load i64, ptr %1, align 8
  %12 = call i32 @pthread_join(i64 noundef %11, ptr noundef %2)
  %13 = load ptr, ptr %2, align 8
  %14 = load i32, ptr %13, align 4
  %15 = call i32 (ptr, ...) @printf(ptr noundef @.str, i32 noundef %14)
  br label %16

16:                                               ; preds = %10, %9, %5
  %.0 = phi i32 [ 1, %5 ], [ 1, %9 ], [ 0, %10 ]
  ret i32 %.0
}

; Function Attrs: nounwind
declare i32 @pthread_create(ptr noundef, ptr noundef, ptr noundef, ptr noundef) #1

; Function Attrs: noinline nounwind uwtable
define internal ptr @watch(ptr noundef %0) #0 {
  br label %2

2:                                                ; preds = %6, %1
  %3 = load i32, ptr @progress, align 4
  %4 = load i32, ptr %0, align 4
  %5 = icmp slt i32 %3, %4
  br i1 %5, label %6, label %8

6:                                                ; preds = %2
  %7 = call i32 @sleep(i32 noundef 1)
  br label %2, !llvm.loop !6

8:                                                ; preds = %2
  %9 = load i32, ptr %0, align 4
  %10 = call i32 (ptr, ...) @printf(ptr noundef @.str.1, i32 noundef %9)
  call void @exit(i32 noundef 3) #7
  unreachable
}

; Function Attrs: noinline nounwind uwtable
define internal ptr @work(ptr noundef %0) #0 {
  %2 = call i64 @pthread_self() #8
  %3 = load i64, ptr @watcher, align 8
  %4 = icmp ne i64 %2, %3
  br i1 %4, label %5, label %6

5:                                                ; preds = %1
  br label %7

6:                                                ; preds = %1
  call void @__assert_fail(ptr noundef @.str.2, ptr noundef @.str.3, i32 noundef 22, ptr noundef @__PRETTY_FUNCTION__.work) #7
  unreachable

7:                                                ; preds = %5
  br label %8

8:                                                ; preds = %17, %7
  %.0 = phi i32 [ 0, %7 ], [ %18, %17 ]
  %9 = icmp slt i32 %.0, 5
  br i1 %9, label %10, label %19

10:                                               ; preds = %8
  %11 = srem i32 %.0, 2
  %12 = icmp ne i32 %11, 0
  %13 = zext i1 %12 to i64
  %14 = select i1 %12, i32 2, i32 1
  %15 = load i32, ptr @progress, align 4
  %16 = add nsw i32 %15, %14
  store i32 %16, ptr @progress, align 4
  br label %17

17:                                               ; preds = %10
  %18 = add nsw i32 %.0, 1
  br label %8, !llvm.loop !8

19:                                               ; preds = %8
  call void @pthread_exit(ptr noundef @progress) #9
  unreachable
}

declare i32 @pthread_join(i64 noundef, ptr noundef) #2

declare i32 @printf(ptr noundef, ...) #2

declare i32 @sleep(i32 noundef) #2

; Function Attrs: noreturn nounwind
declare void @exit(i32 noundef) #3

; Function Attrs: nounwind readnone willreturn
declare i64 @pthread_self() #4

; Function Attrs: noreturn nounwind
declare void @__assert_fail(ptr noundef, ptr noundef, i32 noundef, ptr noundef) #3

; Function Attrs: noreturn
declare void @pthread_exit(ptr noundef) #5

attributes #0 = { noinline nounwind uwtable "frame-pointer"="all" "min-legal-vector-width"="0" "no-trapping-math"="true" "stack-protector-buffer-size"="8" "target-cpu"="x86-64" "target-features"="+cx8,+fxsr,+mmx,+sse,+sse2,+x87" "tune-cpu"="generic" }
attributes #1 = { nounwind "frame-pointer"="all" "no-trapping-math"="true" "stack-protector-buffer-size"="8" "target-cpu"="x86-64" "target-features"="+cx8,+fxsr,+mmx,+sse,+sse2,+x87" "tune-cpu"="generic" }
attributes #2 = { "frame-pointer"="all" "no-trapping-math"="true" "stack-protector-buffer-size"="8" "target-cpu"="x86-64" "target-features"="+cx8,+fxsr,+mmx,+sse,+sse2,+x87" "tune-cpu"="generic" }
attributes #3 = { noreturn nounwind "frame-pointer"="all" "no-trapping-math"="true" "stack-protector-buffer-size"="8" "target-cpu"="x86-64" "target-features"="+cx8,+fxsr,+mmx,+sse,+sse2,+x87" "tune-cpu"="generic" }
attributes #4 = { nounwind readnone willreturn "frame-pointer"="all" "no-trapping-math"="true" "stack-protector-buffer-size"="8" "target-cpu"="x86-64" "target-features"="+cx8,+fxsr,+mmx,+sse,+sse2,+x87" "tune-cpu"="generic" }
attributes #5 = { noreturn "frame-pointer"="all" "no-trapping-math"="true" "stack-protector-buffer-size"="8" "target-cpu"="x86-64" "target-features"="+cx8,+fxsr,+mmx,+sse,+sse2,+x87" "tune-cpu"="generic" }
attributes #6 = { nounwind }
attributes #7 = { noreturn nounwind }
attributes #8 = { nounwind readnone willreturn }
attributes #9 = { noreturn }

!llvm.module.flags = !{!0, !1, !2, !3, !4}
!llvm.ident = !{!5}

!0 = !{i32 1, !"wchar_size", i32 4}
!1 = !{i32 7, !"PIC Level", i32 2}
!2 = !{i32 7, !"PIE Level", i32 2}
!3 = !{i32 7, !"uwtable", i32 2}
!4 = !{i32 7, !"frame-pointer", i32 2}
!5 = !{!"Debian clang version 15.0.6"}
!6 = distinct !{!6, !7}
!7 = !{!"llvm.loop.mustprogress"}
!8 = distinct !{!8, !7}
