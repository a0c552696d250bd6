; ModuleID = 'accounts.c'
source_filename = "accounts.c"
target datalayout = "e-m:e-p270:32:32-p271:32:32-p272:64:64-i64:64-i128:128-f80:128-n8:16:32:64-S128"
target triple = "x86_64-pc-linux-gnu"

%struct.account = type { %union.pthread_mutex_t, i64 }
%union.pthread_mutex_t = type { %struct.__pthread_mutex_s }
%struct.__pthread_mutex_s = type { i32, i32, i32, i32, i32, i16, i16, %struct.__pthread_internal_list }
%struct.__pthread_internal_list = type { ptr, ptr }

@accounts = internal global [2 x %struct.account] [%struct.account { %union.pthread_mutex_t zeroinitializer, i64 100 }, %struct.account { %union.pthread_mutex_t zeroinitializer, i64 50 }], align 16
@.str = private unnamed_addr constant [9 x i8] c"%ld %ld\0A\00", align 1

; Function Attrs: noinline nounwind optnone uwtable
define dso_local i32 @main() #0 {
  %1 = alloca i32, align 4
  %2 = alloca i64, align 8
  store i32 0, ptr %1, align 4
  %3 = call i32 @pthread_create(ptr noundef %2, ptr noundef null, ptr noundef @pay, ptr noundef null) #3
  %4 = load i64, ptr getelementptr inbounds (%struct.account, ptr getelementptr inbounds ([2 x %struct.account], ptr @accounts, i64 0, i64 1), i32 0, i32 1), align 8
  %5 = sub nsw i64 %4, 20
  store i64 %5, ptr getelementptr inbounds (%struct.account, ptr getelementptr inbounds ([2 x %struct.account], ptr @accounts, i64 0, i64 1), i32 0, i32 1), align 8
  %6 = load i64, ptr %2, align 8
  %7 = call i32 @pthread_join(i64 noundef %6, ptr noundef null)
  %8 = load i64, ptr getelementptr inbounds (%struct.account, ptr @accounts, i32 0, i32 1), align 8
  %9 = load i64, ptr getelementptr inbounds (%struct.account, ptr getelementptr inbounds ([2 x %struct.account], ptr @accounts, i64 0, i64 1), i32 0, i32 1), align 8
  %10 = call i32 (ptr, ...) @printf(ptr noundef @.str, i64 noundef %8, i64 noundef %9)
  ret i32 0
}

; Function Attrs: nounwind
declare i32 @pthread_create(ptr noundef, ptr noundef, ptr noundef, ptr noundef) #1

; Function Attrs: noinline nounwind optnone uwtable
define internal ptr @pay(ptr noundef %0) #0 {
  %2 = alloca ptr, align 8
  store ptr %0, ptr %2, align 8
  %3 = call i32 @pthread_mutex_lock(ptr noundef getelementptr inbounds ([2 x %struct.account], ptr @accounts, i64 0, i64 1)) #3
  %4 = load i64, ptr getelementptr inbounds (%struct.account, ptr getelementptr inbounds ([2 x %struct.account], ptr @accounts, i64 0, i64 1), i32 0, i32 1), align 8
  %5 = add nsw i64 %4, 5
  store i64 %5, ptr getelementptr inbounds (%struct.account, ptr getelementptr inbounds ([2 x %struct.account], ptr @accounts, i64 0, i64 1), i32 0, i32 1), align 8
  %6 = call i32 @pthread_mutex_unlock(ptr noundef getelementptr inbounds ([2 x %struct.account], ptr @accounts, i64 0, i64 1)) #3
  ret ptr null
}

declare i32 @pthread_join(i64 noundef, ptr noundef) #2

declare i32 @printf(ptr noundef, ...) #2

; Function Attrs: nounwind
declare i32 @pthread_mutex_lock(ptr noundef) #1

; Function Attrs: nounwind
declare i32 @pthread_mutex_unlock(ptr noundef) #1

attributes #0 = { noinline nounwind optnone uwtable "frame-pointer"="all" "min-legal-vector-width"="0" "no-trapping-math"="true" "stack-protector-buffer-size"="8" "target-cpu"="x86-64" "target-features"="+cmov,+cx8,+fxsr,+mmx,+sse,+sse2,+x87" "tune-cpu"="generic" }
attributes #1 = { nounwind "frame-pointer"="all" "no-trapping-math"="true" "stack-protector-buffer-size"="8" "target-cpu"="x86-64" "target-features"="+cmov,+cx8,+fxsr,+mmx,+sse,+sse2,+x87" "tune-cpu"="generic" }
attributes #2 = { "frame-pointer"="all" "no-trapping-math"="true" "stack-protector-buffer-size"="8" "target-cpu"="x86-64" "target-features"="+cmov,+cx8,+fxsr,+mmx,+sse,+sse2,+x87" "tune-cpu"="generic" }
attributes #3 = { nounwind }

!llvm.module.flags = !{!0, !1, !2, !3, !4}
!llvm.ident = !{!5}

!0 = !{i32 1, !"wchar_size", i32 4}
!1 = !{i32 8, !"PIC Level", i32 2}
!2 = !{i32 7, !"PIE Level", i32 2}
!3 = !{i32 7, !"uwtable", i32 2}
!4 = !{i32 7, !"frame-pointer", i32 2}
!5 = !{!"Debian clang version 19.1.7 (3~deb12u1)"}
