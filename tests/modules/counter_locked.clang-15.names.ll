; ModuleID = 'counter_locked.c'
source_filename = "counter_locked.c"
target datalayout = "e-m:e-p270:32:32-p271:32:32-p272:64:64-i64:64-f80:128-n8:16:32:64-S128"
target triple = "x86_64-pc-linux-gnu"

%struct.counter = type { %union.pthread_mutex_t, i64, i32 }
%union.pthread_mutex_t = type { %struct.__pthread_mutex_s }
%struct.__pthread_mutex_s = type { i32, i32, i32, i32, i32, i16, i16, %struct.__pthread_internal_list }
%struct.__pthread_internal_list = type { ptr, ptr }

@total = internal global %struct.counter zeroinitializer, align 8
@.str = private unnamed_addr constant [9 x i8] c"%ld %ld\0A\00", align 1
@last_lock = internal global %union.pthread_mutex_t zeroinitializer, align 8
@last = internal global i64 0, align 8

; Function Attrs: noinline nounwind optnone uwtable
define dso_local i32 @main() #0 {
entry:
  %retval = alloca i32, align 4
  %threads = alloca [4 x i64], align 16
  %returned = alloca i64, align 8
  %i = alloca i64, align 8
  %i2 = alloca i64, align 8
  %result = alloca ptr, align 8
  store i32 0, ptr %retval, align 4
  store i64 0, ptr %returned, align 8
  %call = call i32 @pthread_mutex_init(ptr noundef @total, ptr noundef null) #3
  store i64 0, ptr %i, align 8
  br label %for.cond

for.cond:                                         ; preds = %for.inc, %entry
  %0 = load i64, ptr %i, align 8
  %cmp = icmp slt i64 %0, 4
  br i1 %cmp, label %for.body, label %for.end

for.body:                                         ; preds = %for.cond
  %1 = load i64, ptr %i, align 8
  %arrayidx = getelementptr inbounds [4 x i64], ptr %threads, i64 0, i64 %1
  %2 = load i64, ptr %i, align 8
  %add = add nsw i64 %2, 1
  %3 = inttoptr i64 %add to ptr
  %call1 = call i32 @pthread_create(ptr noundef %arrayidx, ptr noundef null, ptr noundef @work, ptr noundef %3) #3
  br label %for.inc

for.inc:                                          ; preds = %for.body
  %4 = load i64, ptr %i, align 8
  %inc = add nsw i64 %4, 1
  store i64 %inc, ptr %i, align 8
  br label %for.cond, !llvm.loop !6

for.end:                                          ; preds = %for.cond
  store i64 0, ptr %i2, align 8
  br label %for.cond3

for.cond3:                                        ; preds = %for.inc9, %for.end
  %5 = load i64, ptr %i2, align 8
  %cmp4 = icmp slt i64 %5, 4
  br i1 %cmp4, label %for.body5, label %for.end11

for.body5:                                        ; preds = %for.cond3
  %6 = load i64, ptr %i2, align 8
  %arrayidx6 = getelementptr inbounds [4 x i64], ptr %threads, i64 0, i64 %6
  %7 = load i64, ptr %arrayidx6, align 8
  %call7 = call i32 @pthread_join(i64 noundef %7, ptr noundef %result)
  %8 = load ptr, ptr %result, align 8
  %9 = ptrtoint ptr %8 to i64
  %10 = load i64, ptr %returned, align 8
  %add8 = add nsw i64 %10, %9
  store i64 %add8, ptr %returned, align 8
  br label %for.inc9

for.inc9:                                         ; preds = %for.body5
  %11 = load i64, ptr %i2, align 8
  %inc10 = add nsw i64 %11, 1
  store i64 %inc10, ptr %i2, align 8
  br label %for.cond3, !llvm.loop !8

for.end11:                                        ; preds = %for.cond3
  %call12 = call i32 @pthread_mutex_destroy(ptr noundef @total) #3
  %12 = load i64, ptr getelementptr inbounds (%struct.counter, ptr @total, i32 0, i32 1), align 8
  %13 = load i64, ptr %returned, align 8
  %call13 = call i32 (ptr, ...) @printf(ptr noundef @.str, i64 noundef %12, i64 noundef %13)
  ret i32 0
}

; Function Attrs: nounwind
declare i32 @pthread_mutex_init(ptr noundef, ptr noundef) #1

; Function Attrs: nounwind
declare i32 @pthread_create(ptr noundef, ptr noundef, ptr noundef, ptr noundef) #1

; Function Attrs: noinline nounwind optnone uwtable
define internal ptr @work(ptr noundef %argument) #0 {
entry:
  %argument.addr = alloca ptr, align 8
  %amount = alloca i64, align 8
  %i = alloca i32, align 4
  store ptr %argument, ptr %argument.addr, align 8
  %0 = load ptr, ptr %argument.addr, align 8
  %1 = ptrtoint ptr %0 to i64
  store i64 %1, ptr %amount, align 8
  store i32 0, ptr %i, align 4
  br label %for.cond

for.cond:                                         ; preds = %for.inc, %entry
  %2 = load i32, ptr %i, align 4
  %cmp = icmp slt i32 %2, 3
  br i1 %cmp, label %for.body, label %for.end

for.body:                                         ; preds = %for.cond
  %3 = load i64, ptr %amount, align 8
  call void @add(ptr noundef @total, i64 noundef %3)
  br label %for.inc

for.inc:                                          ; preds = %for.body
  %4 = load i32, ptr %i, align 4
  %inc = add nsw i32 %4, 1
  store i32 %inc, ptr %i, align 4
  br label %for.cond, !llvm.loop !9

for.end:                                          ; preds = %for.cond
  %call = call i32 @pthread_mutex_lock(ptr noundef @last_lock) #3
  %5 = load i64, ptr %amount, align 8
  store i64 %5, ptr @last, align 8
  %call1 = call i32 @pthread_mutex_unlock(ptr noundef @last_lock) #3
  %6 = load i64, ptr %amount, align 8
  %mul = mul nsw i64 %6, 2
  %7 = inttoptr i64 %mul to ptr
  ret ptr %7
}

declare i32 @pthread_join(i64 noundef, ptr noundef) #2

; Function Attrs: nounwind
declare i32 @pthread_mutex_destroy(ptr noundef) #1

declare i32 @printf(ptr noundef, ...) #2

; Function Attrs: noinline nounwind optnone uwtable
define internal void @add(ptr noundef %counter, i64 noundef %amount) #0 {
entry:
  %counter.addr = alloca ptr, align 8
  %amount.addr = alloca i64, align 8
  store ptr %counter, ptr %counter.addr, align 8
  store i64 %amount, ptr %amount.addr, align 8
  %0 = load ptr, ptr %counter.addr, align 8
  %lock = getelementptr inbounds %struct.counter, ptr %0, i32 0, i32 0
  %call = call i32 @pthread_mutex_trylock(ptr noundef %lock) #3
  %cmp = icmp ne i32 %call, 0
  br i1 %cmp, label %if.then, label %if.end

if.then:                                          ; preds = %entry
  %1 = load ptr, ptr %counter.addr, align 8
  %lock1 = getelementptr inbounds %struct.counter, ptr %1, i32 0, i32 0
  %call2 = call i32 @pthread_mutex_lock(ptr noundef %lock1) #3
  %2 = load ptr, ptr %counter.addr, align 8
  %missed = getelementptr inbounds %struct.counter, ptr %2, i32 0, i32 2
  %3 = load i32, ptr %missed, align 8
  %inc = add nsw i32 %3, 1
  store i32 %inc, ptr %missed, align 8
  br label %if.end

if.end:                                           ; preds = %if.then, %entry
  %4 = load i64, ptr %amount.addr, align 8
  %5 = load ptr, ptr %counter.addr, align 8
  %value = getelementptr inbounds %struct.counter, ptr %5, i32 0, i32 1
  %6 = load i64, ptr %value, align 8
  %add = add nsw i64 %6, %4
  store i64 %add, ptr %value, align 8
  %7 = load ptr, ptr %counter.addr, align 8
  %lock3 = getelementptr inbounds %struct.counter, ptr %7, i32 0, i32 0
  %call4 = call i32 @pthread_mutex_unlock(ptr noundef %lock3) #3
  ret void
}

; Function Attrs: nounwind
declare i32 @pthread_mutex_lock(ptr noundef) #1

; Function Attrs: nounwind
declare i32 @pthread_mutex_unlock(ptr noundef) #1

; Function Attrs: nounwind
declare i32 @pthread_mutex_trylock(ptr noundef) #1

attributes #0 = { noinline nounwind optnone uwtable "frame-pointer"="all" "min-legal-vector-width"="0" "no-trapping-math"="true" "stack-protector-buffer-size"="8" "target-cpu"="x86-64" "target-features"="+cx8,+fxsr,+mmx,+sse,+sse2,+x87" "tune-cpu"="generic" }
attributes #1 = { nounwind "frame-pointer"="all" "no-trapping-math"="true" "stack-protector-buffer-size"="8" "target-cpu"="x86-64" "target-features"="+cx8,+fxsr,+mmx,+sse,+sse2,+x87" "tune-cpu"="generic" }
attributes #2 = { "frame-pointer"="all" "no-trapping-math"="true" "stack-protector-buffer-size"="8" "target-cpu"="x86-64" "target-features"="+cx8,+fxsr,+mmx,+sse,+sse2,+x87" "tune-cpu"="generic" }
attributes #3 = { nounwind }

!llvm.module.flags = !{!0, !1, !2, !3, !4}
!llvm.ident = !{!5}

!0 = !{i32 1, !"wchar_size", i32 4}
!1 = !{i32 7, !"PIC Level", i32 2}
!2 = !{i32 7, !"PIE Level", i32 2}
!3 = !{i32 7, !"uwtable", i32 2}
!4 = !{i32 7, !"frame-pointer", i32 2}
!5 = !{!"Debian clang version 15.0.6"}
!6 = distinct !{!6, !7}
!7 = !{!"llvm.loop.mustprogress"}
!8 = distinct !{!8, !7}
!9 = distinct !{!9, !7}
