; ModuleID = 'expressions.c'
source_filename = "expressions.c"
target datalayout = "e-m:e-p270:32:32-p271:32:32-p272:64:64-i64:64-f80:128-n8:16:32:64-S128"
target triple = "x86_64-pc-linux-gnu"

%struct.tree = type { i32, i32, ptr, ptr }

@root = internal global %struct.tree { i32 1, i32 0, ptr @product, ptr @negated }, align 8
@.str = private unnamed_addr constant [12 x i8] c"%ld %ld %d\0A\00", align 1
@.str.1 = private unnamed_addr constant [8 x i8] c"%u %ld\0A\00", align 1
@.str.2 = private unnamed_addr constant [10 x i8] c"%s %s %s\0A\00", align 1
@product = internal global %struct.tree { i32 2, i32 0, ptr @leaves, ptr getelementptr (i8, ptr @leaves, i64 24) }, align 8
@negated = internal global %struct.tree { i32 4, i32 0, ptr @quotient, ptr null }, align 8
@leaves = internal global [4 x %struct.tree] [%struct.tree { i32 0, i32 7, ptr null, ptr null }, %struct.tree { i32 0, i32 -3, ptr null, ptr null }, %struct.tree { i32 0, i32 100, ptr null, ptr null }, %struct.tree { i32 0, i32 9, ptr null, ptr null }], align 16
@quotient = internal global %struct.tree { i32 3, i32 0, ptr getelementptr (i8, ptr @leaves, i64 48), ptr getelementptr (i8, ptr @leaves, i64 72) }, align 8
@nodes = internal global i32 0, align 4
@.str.3 = private unnamed_addr constant [6 x i8] c"below\00", align 1
@.str.4 = private unnamed_addr constant [6 x i8] c"small\00", align 1
@.str.5 = private unnamed_addr constant [6 x i8] c"large\00", align 1
@.str.6 = private unnamed_addr constant [6 x i8] c"other\00", align 1

; Function Attrs: noinline nounwind optnone uwtable
define dso_local i32 @main() #0 {
  %1 = alloca i32, align 4
  %2 = alloca i64, align 8
  %3 = alloca i64, align 8
  %4 = alloca ptr, align 8
  %5 = alloca ptr, align 8
  %6 = alloca i64, align 8
  store i32 0, ptr %1, align 4
  store i64 8, ptr %6, align 8
  %7 = load ptr, ptr getelementptr inbounds (%struct.tree, ptr @root, i32 0, i32 2), align 8
  %8 = call i32 @pthread_create(ptr noundef %2, ptr noundef null, ptr noundef @evaluate, ptr noundef %7) #4
  %9 = load ptr, ptr getelementptr inbounds (%struct.tree, ptr @root, i32 0, i32 3), align 8
  %10 = call i32 @pthread_create(ptr noundef %3, ptr noundef null, ptr noundef @evaluate, ptr noundef %9) #4
  %11 = load i64, ptr %2, align 8
  %12 = call i32 @pthread_join(i64 noundef %11, ptr noundef %4)
  %13 = load i64, ptr %3, align 8
  %14 = call i32 @pthread_join(i64 noundef %13, ptr noundef %5)
  %15 = load ptr, ptr %4, align 8
  %16 = ptrtoint ptr %15 to i64
  %17 = load ptr, ptr %5, align 8
  %18 = ptrtoint ptr %17 to i64
  %19 = call i32 @value(ptr noundef @root)
  %20 = call i32 (ptr, ...) @printf(ptr noundef @.str, i64 noundef %16, i64 noundef %18, i32 noundef %19)
  %21 = call i32 @fibonacci(i32 noundef 8)
  %22 = call i64 @weigh(i8 noundef signext 97, i16 noundef signext -2, i32 noundef 3, i64 noundef -4, i8 noundef zeroext -6, i16 noundef zeroext -5536, i32 noundef -294967296, ptr noundef %6, i32 noundef 0)
  %23 = call i32 (ptr, ...) @printf(ptr noundef @.str.1, i32 noundef %21, i64 noundef %22)
  %24 = call ptr @name_of(i64 noundef -1)
  %25 = call ptr @name_of(i64 noundef 1)
  %26 = call ptr @name_of(i64 noundef 4000000000)
  %27 = call i32 (ptr, ...) @printf(ptr noundef @.str.2, ptr noundef %24, ptr noundef %25, ptr noundef %26)
  ret i32 0
}

; Function Attrs: nounwind
declare i32 @pthread_create(ptr noundef, ptr noundef, ptr noundef, ptr noundef) #1

; Function Attrs: noinline nounwind optnone uwtable
define internal ptr @evaluate(ptr noundef %0) #0 {
  %2 = alloca ptr, align 8
  store ptr %0, ptr %2, align 8
  %3 = load ptr, ptr %2, align 8
  %4 = call i32 @value(ptr noundef %3)
  %5 = sext i32 %4 to i64
  %6 = inttoptr i64 %5 to ptr
  ret ptr %6
}

declare i32 @pthread_join(i64 noundef, ptr noundef) #2

declare i32 @printf(ptr noundef, ...) #2

; Function Attrs: noinline nounwind optnone uwtable
define internal i32 @value(ptr noundef %0) #0 {
  %2 = alloca i32, align 4
  %3 = alloca ptr, align 8
  store ptr %0, ptr %3, align 8
  %4 = load i32, ptr @nodes, align 4
  %5 = add nsw i32 %4, 1
  store i32 %5, ptr @nodes, align 4
  %6 = load ptr, ptr %3, align 8
  %7 = getelementptr inbounds %struct.tree, ptr %6, i32 0, i32 0
  %8 = load i32, ptr %7, align 8
  switch i32 %8, label %49 [
    i32 0, label %9
    i32 1, label %13
    i32 2, label %23
    i32 3, label %33
    i32 4, label %43
  ]

9:                                                ; preds = %1
  %10 = load ptr, ptr %3, align 8
  %11 = getelementptr inbounds %struct.tree, ptr %10, i32 0, i32 1
  %12 = load i32, ptr %11, align 4
  store i32 %12, ptr %2, align 4
  br label %50

13:                                               ; preds = %1
  %14 = load ptr, ptr %3, align 8
  %15 = getelementptr inbounds %struct.tree, ptr %14, i32 0, i32 2
  %16 = load ptr, ptr %15, align 8
  %17 = call i32 @value(ptr noundef %16)
  %18 = load ptr, ptr %3, align 8
  %19 = getelementptr inbounds %struct.tree, ptr %18, i32 0, i32 3
  %20 = load ptr, ptr %19, align 8
  %21 = call i32 @value(ptr noundef %20)
  %22 = add nsw i32 %17, %21
  store i32 %22, ptr %2, align 4
  br label %50

23:                                               ; preds = %1
  %24 = load ptr, ptr %3, align 8
  %25 = getelementptr inbounds %struct.tree, ptr %24, i32 0, i32 2
  %26 = load ptr, ptr %25, align 8
  %27 = call i32 @value(ptr noundef %26)
  %28 = load ptr, ptr %3, align 8
  %29 = getelementptr inbounds %struct.tree, ptr %28, i32 0, i32 3
  %30 = load ptr, ptr %29, align 8
  %31 = call i32 @value(ptr noundef %30)
  %32 = mul nsw i32 %27, %31
  store i32 %32, ptr %2, align 4
  br label %50

33:                                               ; preds = %1
  %34 = load ptr, ptr %3, align 8
  %35 = getelementptr inbounds %struct.tree, ptr %34, i32 0, i32 2
  %36 = load ptr, ptr %35, align 8
  %37 = call i32 @value(ptr noundef %36)
  %38 = load ptr, ptr %3, align 8
  %39 = getelementptr inbounds %struct.tree, ptr %38, i32 0, i32 3
  %40 = load ptr, ptr %39, align 8
  %41 = call i32 @value(ptr noundef %40)
  %42 = sdiv i32 %37, %41
  store i32 %42, ptr %2, align 4
  br label %50

43:                                               ; preds = %1
  %44 = load ptr, ptr %3, align 8
  %45 = getelementptr inbounds %struct.tree, ptr %44, i32 0, i32 2
  %46 = load ptr, ptr %45, align 8
  %47 = call i32 @value(ptr noundef %46)
  %48 = sub nsw i32 0, %47
  store i32 %48, ptr %2, align 4
  br label %50

49:                                               ; preds = %1
  call void @abort() #5
  unreachable

50:                                               ; preds = %43, %33, %23, %13, %9
  %51 = load i32, ptr %2, align 4
  ret i32 %51
}

; Function Attrs: noinline nounwind optnone uwtable
define internal i32 @fibonacci(i32 noundef %0) #0 {
  %2 = alloca i32, align 4
  store i32 %0, ptr %2, align 4
  %3 = load i32, ptr %2, align 4
  %4 = icmp ult i32 %3, 2
  br i1 %4, label %5, label %7

5:                                                ; preds = %1
  %6 = load i32, ptr %2, align 4
  br label %15

7:                                                ; preds = %1
  %8 = load i32, ptr %2, align 4
  %9 = sub i32 %8, 1
  %10 = call i32 @fibonacci(i32 noundef %9)
  %11 = load i32, ptr %2, align 4
  %12 = sub i32 %11, 2
  %13 = call i32 @fibonacci(i32 noundef %12)
  %14 = add i32 %10, %13
  br label %15

15:                                               ; preds = %7, %5
  %16 = phi i32 [ %6, %5 ], [ %14, %7 ]
  ret i32 %16
}

; Function Attrs: noinline nounwind optnone uwtable
define internal i64 @weigh(i8 noundef signext %0, i16 noundef signext %1, i32 noundef %2, i64 noundef %3, i8 noundef zeroext %4, i16 noundef zeroext %5, i32 noundef %6, ptr noundef %7, i32 noundef %8) #0 {
  %10 = alloca i8, align 1
  %11 = alloca i16, align 2
  %12 = alloca i32, align 4
  %13 = alloca i64, align 8
  %14 = alloca i8, align 1
  %15 = alloca i16, align 2
  %16 = alloca i32, align 4
  %17 = alloca ptr, align 8
  %18 = alloca i32, align 4
  store i8 %0, ptr %10, align 1
  store i16 %1, ptr %11, align 2
  store i32 %2, ptr %12, align 4
  store i64 %3, ptr %13, align 8
  store i8 %4, ptr %14, align 1
  store i16 %5, ptr %15, align 2
  store i32 %6, ptr %16, align 4
  store ptr %7, ptr %17, align 8
  store i32 %8, ptr %18, align 4
  %19 = load i8, ptr %10, align 1
  %20 = sext i8 %19 to i32
  %21 = load i16, ptr %11, align 2
  %22 = sext i16 %21 to i32
  %23 = mul nsw i32 2, %22
  %24 = add nsw i32 %20, %23
  %25 = load i32, ptr %12, align 4
  %26 = mul nsw i32 3, %25
  %27 = add nsw i32 %24, %26
  %28 = sext i32 %27 to i64
  %29 = load i64, ptr %13, align 8
  %30 = mul nsw i64 4, %29
  %31 = add nsw i64 %28, %30
  %32 = load i8, ptr %14, align 1
  %33 = zext i8 %32 to i32
  %34 = mul nsw i32 5, %33
  %35 = sext i32 %34 to i64
  %36 = add nsw i64 %31, %35
  %37 = load i16, ptr %15, align 2
  %38 = zext i16 %37 to i32
  %39 = mul nsw i32 6, %38
  %40 = sext i32 %39 to i64
  %41 = add nsw i64 %36, %40
  %42 = load i32, ptr %16, align 4
  %43 = zext i32 %42 to i64
  %44 = mul nsw i64 7, %43
  %45 = add nsw i64 %41, %44
  %46 = load ptr, ptr %17, align 8
  %47 = load i64, ptr %46, align 8
  %48 = mul nsw i64 8, %47
  %49 = add nsw i64 %45, %48
  %50 = load i32, ptr %18, align 4
  %51 = icmp ne i32 %50, 0
  %52 = zext i1 %51 to i64
  %53 = select i1 %51, i32 1, i32 -1
  %54 = sext i32 %53 to i64
  %55 = add nsw i64 %49, %54
  ret i64 %55
}

; Function Attrs: noinline nounwind optnone uwtable
define internal ptr @name_of(i64 noundef %0) #0 {
  %2 = alloca ptr, align 8
  %3 = alloca i64, align 8
  store i64 %0, ptr %3, align 8
  %4 = load i64, ptr %3, align 8
  switch i64 %4, label %8 [
    i64 -1, label %5
    i64 0, label %6
    i64 1, label %6
    i64 4000000000, label %7
  ]

5:                                                ; preds = %1
  store ptr @.str.3, ptr %2, align 8
  br label %9

6:                                                ; preds = %1, %1
  store ptr @.str.4, ptr %2, align 8
  br label %9

7:                                                ; preds = %1
  store ptr @.str.5, ptr %2, align 8
  br label %9

8:                                                ; preds = %1
  store ptr @.str.6, ptr %2, align 8
  br label %9

9:                                                ; preds = %8, %7, %6, %5
  %10 = load ptr, ptr %2, align 8
  ret ptr %10
}

; Function Attrs: noreturn nounwind
declare void @abort() #3

attributes #0 = { noinline nounwind optnone uwtable "frame-pointer"="all" "min-legal-vector-width"="0" "no-trapping-math"="true" "stack-protector-buffer-size"="8" "target-cpu"="x86-64" "target-features"="+cx8,+fxsr,+mmx,+sse,+sse2,+x87" "tune-cpu"="generic" }
attributes #1 = { nounwind "frame-pointer"="all" "no-trapping-math"="true" "stack-protector-buffer-size"="8" "target-cpu"="x86-64" "target-features"="+cx8,+fxsr,+mmx,+sse,+sse2,+x87" "tune-cpu"="generic" }
attributes #2 = { "frame-pointer"="all" "no-trapping-math"="true" "stack-protector-buffer-size"="8" "target-cpu"="x86-64" "target-features"="+cx8,+fxsr,+mmx,+sse,+sse2,+x87" "tune-cpu"="generic" }
attributes #3 = { noreturn nounwind "frame-pointer"="all" "no-trapping-math"="true" "stack-protector-buffer-size"="8" "target-cpu"="x86-64" "target-features"="+cx8,+fxsr,+mmx,+sse,+sse2,+x87" "tune-cpu"="generic" }
attributes #4 = { nounwind }
attributes #5 = { noreturn nounwind }

!llvm.module.flags = !{!0, !1, !2, !3, !4}
!llvm.ident = !{!5}

!0 = !{i32 1, !"wchar_size", i32 4}
!1 = !{i32 7, !"PIC Level", i32 2}
!2 = !{i32 7, !"PIE Level", i32 2}
!3 = !{i32 7, !"uwtable", i32 2}
!4 = !{i32 7, !"frame-pointer", i32 2}
!5 = !{!"Debian clang version 15.0.6"}
