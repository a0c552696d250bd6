; ModuleID = '<stdin>'
source_filename = "expressions.c"
target datalayout = "e-m:e-p270:32:32-p271:32:32-p272:64:64-i64:64-i128:128-f80:128-n8:16:32:64-S128"
target triple = "x86_64-pc-linux-gnu"

%struct.tree = type { i32, i32, ptr, ptr }

@root = internal global %struct.tree { i32 1, i32 0, ptr @product, ptr @negated }, align 8
@.str = private unnamed_addr constant [12 x i8] c"%ld %ld %d\0A\00", align 1
@.str.1 = private unnamed_addr constant [8 x i8] c"%u %ld\0A\00", align 1
@.str.2 = private unnamed_addr constant [10 x i8] c"%s %s %s\0A\00", align 1
@product = internal global %struct.tree { i32 2, i32 0, ptr @leaves, ptr getelementptr (i8, ptr @leaves, i64 24) }, align 8
@negated = internal global %struct.tree { i32 4, i32 0, ptr @quotient, ptr null }, align 8
@leaves = internal global [4 x %struct.tree] [%struct.tree { i32 0, i32 7, ptr null, ptr null }, %struct.tree { i32 0, i32 -3, ptr null, ptr null }, %struct.tree { i32 0, i32 100, ptr null, ptr null }, %struct.tree { i32 0, i32 9, ptr null, ptr null }], align 16
@quotient = internal global %struct.tree { i32 3, i32 0, ptr getelementptr (i8, ptr @leaves, i64 48), ptr getelementptr (i8, ptr @leaves, i64 72) }, align 8
@nodes = internal global i32 0, align 4
@.str.3 = private unnamed_addr constant [6 x i8] c"below\00", align 1
@.str.4 = private unnamed_addr constant [6 x i8] c"small\00", align 1
@.str.5 = private unnamed_addr constant [6 x i8] c"large\00", align 1
@.str.6 = private unnamed_addr constant [6 x i8] c"other\00", align 1

; Function Attrs: noinline nounwind uwtable
define dso_local i32 @main() #0 {
  %1 = alloca i64, align 8
  %2 = alloca i64, align 8
  %3 = alloca ptr, align 8
  %4 = alloca ptr, align 8
  %5 = alloca i64, align 8
  store i64 8, ptr %5, align 8
  %6 = load ptr, ptr getelementptr inbounds (%struct.tree, ptr @root, i32 0, i32 2), align 8
  %7 = call i32 @pthread_create(ptr noundef %1, ptr noundef null, ptr noundef @evaluate, ptr noundef %6) #4
  %8 = load ptr, ptr getelementptr inbounds (%struct.tree, ptr @root, i32 0, i32 3), align 8
  %9 = call i32 @pthread_create(ptr noundef %2, ptr noundef null, ptr noundef @evaluate, ptr noundef %8) #4
  %10 = load i64, ptr %1, align 8
  %11 = call i32 @pthread_join(i64 noundef %10, ptr noundef %3)
  %12 = load i64, ptr %2, align 8
  %13 = call i32 @pthread_join(i64 noundef %12, ptr noundef %4)
  %14 = load ptr, ptr %3, align 8
  %15 = ptrtoint ptr %14 to i64
  %16 = load ptr, ptr %4, align 8
  %17 = ptrtoint ptr %16 to i64
  %18 = call i32 @value(ptr noundef @root)
  %19 = call i32 (ptr, ...) @printf(ptr noundef @.str, i64 noundef %15, i64 noundef %17, i32 noundef %18)
  %20 = call i32 @fibonacci(i32 noundef 8)
  %21 = call i64 @weigh(i8 noundef signext 97, i16 noundef signext -2, i32 noundef 3, i64 noundef -4, i8 noundef zeroext -6, i16 noundef zeroext -5536, i32 noundef -294967296, ptr noundef %5, i32 noundef 0)
  %22 = call i32 (ptr, ...) @printf(ptr noundef @.str.1, i32 noundef %20, i64 noundef %21)
  %23 = call ptr @name_of(i64 noundef -1)
  %24 = call ptr @name_of(i64 noundef 1)
  %25 = call ptr @name_of(i64 noundef 4000000000)
  %26 = call i32 (ptr, ...) @printf(ptr noundef @.str.2, ptr noundef %23, ptr noundef %24, ptr noundef %25)
  ret i32 0
}

; Function Attrs: nounwind
declare i32 @pthread_create(ptr noundef, ptr noundef, ptr noundef, ptr noundef) #1

; Function Attrs: noinline nounwind uwtable
define internal ptr @evaluate(ptr noundef %0) #0 {
  %2 = call i32 @value(ptr noundef %0)
  %3 = sext i32 %2 to i64
  %4 = inttoptr i64 %3 to ptr
  ret ptr %4
}

declare i32 @pthread_join(i64 noundef, ptr noundef) #2

declare i32 @printf(ptr noundef, ...) #2

; Function Attrs: noinline nounwind uwtable
define internal i32 @value(ptr noundef %0) #0 {
  %2 = load i32, ptr @nodes, align 4
  %3 = add nsw i32 %2, 1
  store i32 %3, ptr @nodes, align 4
  %4 = getelementptr inbounds %struct.tree, ptr %0, i32 0, i32 0
  %5 = load i32, ptr %4, align 8
  switch i32 %5, label %38 [
    i32 0, label %6
    i32 1, label %9
    i32 2, label %17
    i32 3, label %25
    i32 4, label %33
  ]

6:                                                ; preds = %1
  %7 = getelementptr inbounds %struct.tree, ptr %0, i32 0, i32 1
  %8 = load i32, ptr %7, align 4
  br label %39

9:                                                ; preds = %1
  %10 = getelementptr inbounds %struct.tree, ptr %0, i32 0, i32 2
  %11 = load ptr, ptr %10, align 8
  %12 = call i32 @value(ptr noundef %11)
  %13 = getelementptr inbounds %struct.tree, ptr %0, i32 0, i32 3
  %14 = load ptr, ptr %13, align 8
  %15 = call i32 @value(ptr noundef %14)
  %16 = add nsw i32 %12, %15
  br label %39

17:                                               ; preds = %1
  %18 = getelementptr inbounds %struct.tree, ptr %0, i32 0, i32 2
  %19 = load ptr, ptr %18, align 8
  %20 = call i32 @value(ptr noundef %19)
  %21 = getelementptr inbounds %struct.tree, ptr %0, i32 0, i32 3
  %22 = load ptr, ptr %21, align 8
  %23 = call i32 @value(ptr noundef %22)
  %24 = mul nsw i32 %20, %23
  br label %39

25:                                               ; preds = %1
  %26 = getelementptr inbounds %struct.tree, ptr %0, i32 0, i32 2
  %27 = load ptr, ptr %26, align 8
  %28 = call i32 @value(ptr noundef %27)
  %29 = getelementptr inbounds %struct.tree, ptr %0, i32 0, i32 3
  %30 = load ptr, ptr %29, align 8
  %31 = call i32 @value(ptr noundef %30)
  %32 = sdiv i32 %28, %31
  br label %39

33:                                               ; preds = %1
  %34 = getelementptr inbounds %struct.tree, ptr %0, i32 0, i32 2
  %35 = load ptr, ptr %34, align 8
  %36 = call i32 @value(ptr noundef %35)
  %37 = sub nsw i32 0, %36
  br label %39

38:                                               ; preds = %1
  call void @abort() #5
  unreachable

39:                                               ; preds = %33, %25, %17, %9, %6
  %.0 = phi i32 [ %37, %33 ], [ %32, %25 ], [ %24, %17 ], [ %16, %9 ], [ %8, %6 ]
  ret i32 %.0
}

; Function Attrs: noinline nounwind uwtable
define internal i32 @fibonacci(i32 noundef %0) #0 {
  %2 = icmp ult i32 %0, 2
  br i1 %2, label %3, label %4

3:                                                ; preds = %1
  br label %10

4:                                                ; preds = %1
  %5 = sub i32 %0, 1
  %6 = call i32 @fibonacci(i32 noundef %5)
  %7 = sub i32 %0, 2
  %8 = call i32 @fibonacci(i32 noundef %7)
  %9 = add i32 %6, %8
  br label %10

10:                                               ; preds = %4, %3
  %11 = phi i32 [ %0, %3 ], [ %9, %4 ]
  ret i32 %11
}

; Function Attrs: noinline nounwind uwtable
define internal i64 @weigh(i8 noundef signext %0, i16 noundef signext %1, i32 noundef %2, i64 noundef %3, i8 noundef zeroext %4, i16 noundef zeroext %5, i32 noundef %6, ptr noundef %7, i32 noundef %8) #0 {
  %10 = sext i8 %0 to i32
  %11 = sext i16 %1 to i32
  %12 = mul nsw i32 2, %11
  %13 = add nsw i32 %10, %12
  %14 = mul nsw i32 3, %2
  %15 = add nsw i32 %13, %14
  %16 = sext i32 %15 to i64
  %17 = mul nsw i64 4, %3
  %18 = add nsw i64 %16, %17
  %19 = zext i8 %4 to i32
  %20 = mul nsw i32 5, %19
  %21 = sext i32 %20 to i64
  %22 = add nsw i64 %18, %21
  %23 = zext i16 %5 to i32
  %24 = mul nsw i32 6, %23
  %25 = sext i32 %24 to i64
  %26 = add nsw i64 %22, %25
  %27 = zext i32 %6 to i64
  %28 = mul nsw i64 7, %27
  %29 = add nsw i64 %26, %28
  %30 = load i64, ptr %7, align 8
  %31 = mul nsw i64 8, %30
  %32 = add nsw i64 %29, %31
  %33 = icmp ne i32 %8, 0
  %34 = zext i1 %33 to i64
  %35 = select i1 %33, i32 1, i32 -1
  %36 = sext i32 %35 to i64
  %37 = add nsw i64 %32, %36
  ret i64 %37
}

; Function Attrs: noinline nounwind uwtable
define internal ptr @name_of(i64 noundef %0) #0 {
  switch i64 %0, label %5 [
    i64 -1, label %2
    i64 0, label %3
    i64 1, label %3
    i64 4000000000, label %4
  ]

2:                                                ; preds = %1
  br label %6

3:                                                ; preds = %1, %1
  br label %6

4:                                                ; preds = %1
  br label %6

5:                                                ; preds = %1
  br label %6

6:                                                ; preds = %5, %4, %3, %2
  %.0 = phi ptr [ @.str.6, %5 ], [ @.str.5, %4 ], [ @.str.4, %3 ], [ @.str.3, %2 ]
  ret ptr %.0
}

; Function Attrs: noreturn nounwind
declare void @abort() #3

attributes #0 = { noinline nounwind uwtable "frame-pointer"="all" "min-legal-vector-width"="0" "no-trapping-math"="true" "stack-protector-buffer-size"="8" "target-cpu"="x86-64" "target-features"="+cmov,+cx8,+fxsr,+mmx,+sse,+sse2,+x87" "tune-cpu"="generic" }
attributes #1 = { nounwind "frame-pointer"="all" "no-trapping-math"="true" "stack-protector-buffer-size"="8" "target-cpu"="x86-64" "target-features"="+cmov,+cx8,+fxsr,+mmx,+sse,+sse2,+x87" "tune-cpu"="generic" }
attributes #2 = { "frame-pointer"="all" "no-trapping-math"="true" "stack-protector-buffer-size"="8" "target-cpu"="x86-64" "target-features"="+cmov,+cx8,+fxsr,+mmx,+sse,+sse2,+x87" "tune-cpu"="generic" }
attributes #3 = { noreturn nounwind "frame-pointer"="all" "no-trapping-math"="true" "stack-protector-buffer-size"="8" "target-cpu"="x86-64" "target-features"="+cmov,+cx8,+fxsr,+mmx,+sse,+sse2,+x87" "tune-cpu"="generic" }
attributes #4 = { nounwind }
attributes #5 = { noreturn nounwind }

!llvm.module.flags = !{!0, !1, !2, !3, !4}
!llvm.ident = !{!5}

!0 = !{i32 1, !"wchar_size", i32 4}
!1 = !{i32 8, !"PIC Level", i32 2}
!2 = !{i32 7, !"PIE Level", i32 2}
!3 = !{i32 7, !"uwtable", i32 2}
!4 = !{i32 7, !"frame-pointer", i32 2}
!5 = !{!"Debian clang version 19.1.7 (3~deb12u1)"}
