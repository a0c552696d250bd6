; ModuleID = 'linked_list.c'
source_filename = "linked_list.c"
target datalayout = "e-m:e-p270:32:32-p271:32:32-p272:64:64-i64:64-i128:128-f80:128-n8:16:32:64-S128"
target triple = "x86_64-pc-linux-gnu"

%struct.list = type { ptr, i32, %union.pthread_mutex_t }
%union.pthread_mutex_t = type { %struct.__pthread_mutex_s }
%struct.__pthread_mutex_s = type { i32, i32, i32, i32, i32, i16, i16, %struct.__pthread_internal_list }
%struct.__pthread_internal_list = type { ptr, ptr }
%struct.link = type { ptr, i32 }

@.str = private unnamed_addr constant [4 x i8] c"%u:\00", align 1
@.str.1 = private unnamed_addr constant [4 x i8] c" %d\00", align 1

; Function Attrs: noinline nounwind optnone uwtable
define dso_local i32 @main() #0 {
entry:
  %retval = alloca i32, align 4
  %list = alloca ptr, align 8
  %odd = alloca i64, align 8
  %even = alloca i64, align 8
  %rising = alloca i32, align 4
  %before = alloca i32, align 4
  %link = alloca ptr, align 8
  store i32 0, ptr %retval, align 4
  %call = call noalias ptr @calloc(i64 noundef 1, i64 noundef 56) #5
  store ptr %call, ptr %list, align 8
  store i32 1, ptr %rising, align 4
  store i32 -1, ptr %before, align 4
  %0 = load ptr, ptr %list, align 8
  %call1 = call i32 @pthread_create(ptr noundef %odd, ptr noundef null, ptr noundef @insert_odd, ptr noundef %0) #6
  %1 = load ptr, ptr %list, align 8
  %call2 = call i32 @pthread_create(ptr noundef %even, ptr noundef null, ptr noundef @insert_even, ptr noundef %1) #6
  %2 = load i64, ptr %odd, align 8
  %call3 = call i32 @pthread_join(i64 noundef %2, ptr noundef null)
  %3 = load i64, ptr %even, align 8
  %call4 = call i32 @pthread_join(i64 noundef %3, ptr noundef null)
  %4 = load ptr, ptr %list, align 8
  %length = getelementptr inbounds %struct.list, ptr %4, i32 0, i32 1
  %5 = load i32, ptr %length, align 8
  %call5 = call i32 (ptr, ...) @printf(ptr noundef @.str, i32 noundef %5)
  br label %while.cond

while.cond:                                       ; preds = %land.end, %entry
  %6 = load ptr, ptr %list, align 8
  %first = getelementptr inbounds %struct.list, ptr %6, i32 0, i32 0
  %7 = load ptr, ptr %first, align 8
  %cmp = icmp ne ptr %7, null
  br i1 %cmp, label %while.body, label %while.end

while.body:                                       ; preds = %while.cond
  %8 = load ptr, ptr %list, align 8
  %first6 = getelementptr inbounds %struct.list, ptr %8, i32 0, i32 0
  %9 = load ptr, ptr %first6, align 8
  store ptr %9, ptr %link, align 8
  %10 = load ptr, ptr %link, align 8
  %next = getelementptr inbounds %struct.link, ptr %10, i32 0, i32 0
  %11 = load ptr, ptr %next, align 8
  %12 = load ptr, ptr %list, align 8
  %first7 = getelementptr inbounds %struct.list, ptr %12, i32 0, i32 0
  store ptr %11, ptr %first7, align 8
  %13 = load ptr, ptr %link, align 8
  %key = getelementptr inbounds %struct.link, ptr %13, i32 0, i32 1
  %14 = load i32, ptr %key, align 8
  %call8 = call i32 (ptr, ...) @printf(ptr noundef @.str.1, i32 noundef %14)
  %15 = load i32, ptr %rising, align 4
  %tobool = icmp ne i32 %15, 0
  br i1 %tobool, label %land.rhs, label %land.end

land.rhs:                                         ; preds = %while.body
  %16 = load i32, ptr %before, align 4
  %17 = load ptr, ptr %link, align 8
  %key9 = getelementptr inbounds %struct.link, ptr %17, i32 0, i32 1
  %18 = load i32, ptr %key9, align 8
  %cmp10 = icmp slt i32 %16, %18
  br label %land.end

land.end:                                         ; preds = %land.rhs, %while.body
  %19 = phi i1 [ false, %while.body ], [ %cmp10, %land.rhs ]
  %land.ext = zext i1 %19 to i32
  store i32 %land.ext, ptr %rising, align 4
  %20 = load ptr, ptr %link, align 8
  %key11 = getelementptr inbounds %struct.link, ptr %20, i32 0, i32 1
  %21 = load i32, ptr %key11, align 8
  store i32 %21, ptr %before, align 4
  %22 = load ptr, ptr %link, align 8
  call void @free(ptr noundef %22) #6
  br label %while.cond, !llvm.loop !6

while.end:                                        ; preds = %while.cond
  %call12 = call i32 @putchar(i32 noundef 10)
  %23 = load ptr, ptr %list, align 8
  call void @free(ptr noundef %23) #6
  %24 = load i32, ptr %rising, align 4
  %tobool13 = icmp ne i32 %24, 0
  %25 = zext i1 %tobool13 to i64
  %cond = select i1 %tobool13, i32 0, i32 1
  ret i32 %cond
}

; Function Attrs: nounwind allocsize(0,1)
declare noalias ptr @calloc(i64 noundef, i64 noundef) #1

; Function Attrs: nounwind
declare i32 @pthread_create(ptr noundef, ptr noundef, ptr noundef, ptr noundef) #2

; Function Attrs: noinline nounwind optnone uwtable
define internal ptr @insert_odd(ptr noundef %list) #0 {
entry:
  %list.addr = alloca ptr, align 8
  %key = alloca i32, align 4
  store ptr %list, ptr %list.addr, align 8
  store i32 1, ptr %key, align 4
  br label %for.cond

for.cond:                                         ; preds = %for.inc, %entry
  %0 = load i32, ptr %key, align 4
  %cmp = icmp slt i32 %0, 8
  br i1 %cmp, label %for.body, label %for.end

for.body:                                         ; preds = %for.cond
  %1 = load ptr, ptr %list.addr, align 8
  %2 = load i32, ptr %key, align 4
  %call = call i32 @insert(ptr noundef %1, i32 noundef %2)
  br label %for.inc

for.inc:                                          ; preds = %for.body
  %3 = load i32, ptr %key, align 4
  %add = add nsw i32 %3, 2
  store i32 %add, ptr %key, align 4
  br label %for.cond, !llvm.loop !8

for.end:                                          ; preds = %for.cond
  ret ptr null
}

; Function Attrs: noinline nounwind optnone uwtable
define internal ptr @insert_even(ptr noundef %list) #0 {
entry:
  %list.addr = alloca ptr, align 8
  %key = alloca i32, align 4
  store ptr %list, ptr %list.addr, align 8
  store i32 6, ptr %key, align 4
  br label %for.cond

for.cond:                                         ; preds = %for.inc, %entry
  %0 = load i32, ptr %key, align 4
  %cmp = icmp sge i32 %0, 0
  br i1 %cmp, label %for.body, label %for.end

for.body:                                         ; preds = %for.cond
  %1 = load ptr, ptr %list.addr, align 8
  %2 = load i32, ptr %key, align 4
  %call = call i32 @insert(ptr noundef %1, i32 noundef %2)
  br label %for.inc

for.inc:                                          ; preds = %for.body
  %3 = load i32, ptr %key, align 4
  %sub = sub nsw i32 %3, 2
  store i32 %sub, ptr %key, align 4
  br label %for.cond, !llvm.loop !9

for.end:                                          ; preds = %for.cond
  ret ptr null
}

declare i32 @pthread_join(i64 noundef, ptr noundef) #3

declare i32 @printf(ptr noundef, ...) #3

; Function Attrs: nounwind
declare void @free(ptr noundef) #2

declare i32 @putchar(i32 noundef) #3

; Function Attrs: noinline nounwind optnone uwtable
define internal i32 @insert(ptr noundef %list, i32 noundef %key) #0 {
entry:
  %retval = alloca i32, align 4
  %list.addr = alloca ptr, align 8
  %key.addr = alloca i32, align 4
  %link = alloca ptr, align 8
  %place = alloca ptr, align 8
  store ptr %list, ptr %list.addr, align 8
  store i32 %key, ptr %key.addr, align 4
  %call = call noalias ptr @malloc(i64 noundef 16) #7
  store ptr %call, ptr %link, align 8
  %0 = load ptr, ptr %list.addr, align 8
  %first = getelementptr inbounds %struct.list, ptr %0, i32 0, i32 0
  store ptr %first, ptr %place, align 8
  %1 = load ptr, ptr %link, align 8
  %cmp = icmp eq ptr %1, null
  br i1 %cmp, label %if.then, label %if.end

if.then:                                          ; preds = %entry
  store i32 -1, ptr %retval, align 4
  br label %return

if.end:                                           ; preds = %entry
  %2 = load i32, ptr %key.addr, align 4
  %3 = load ptr, ptr %link, align 8
  %key1 = getelementptr inbounds %struct.link, ptr %3, i32 0, i32 1
  store i32 %2, ptr %key1, align 8
  %4 = load ptr, ptr %list.addr, align 8
  %lock = getelementptr inbounds %struct.list, ptr %4, i32 0, i32 2
  %call2 = call i32 @pthread_mutex_lock(ptr noundef %lock) #6
  br label %while.cond

while.cond:                                       ; preds = %while.body, %if.end
  %5 = load ptr, ptr %place, align 8
  %6 = load ptr, ptr %5, align 8
  %cmp3 = icmp ne ptr %6, null
  br i1 %cmp3, label %land.rhs, label %land.end

land.rhs:                                         ; preds = %while.cond
  %7 = load ptr, ptr %place, align 8
  %8 = load ptr, ptr %7, align 8
  %key4 = getelementptr inbounds %struct.link, ptr %8, i32 0, i32 1
  %9 = load i32, ptr %key4, align 8
  %10 = load i32, ptr %key.addr, align 4
  %cmp5 = icmp slt i32 %9, %10
  br label %land.end

land.end:                                         ; preds = %land.rhs, %while.cond
  %11 = phi i1 [ false, %while.cond ], [ %cmp5, %land.rhs ]
  br i1 %11, label %while.body, label %while.end

while.body:                                       ; preds = %land.end
  %12 = load ptr, ptr %place, align 8
  %13 = load ptr, ptr %12, align 8
  %next = getelementptr inbounds %struct.link, ptr %13, i32 0, i32 0
  store ptr %next, ptr %place, align 8
  br label %while.cond, !llvm.loop !10

while.end:                                        ; preds = %land.end
  %14 = load ptr, ptr %place, align 8
  %15 = load ptr, ptr %14, align 8
  %16 = load ptr, ptr %link, align 8
  %next6 = getelementptr inbounds %struct.link, ptr %16, i32 0, i32 0
  store ptr %15, ptr %next6, align 8
  %17 = load ptr, ptr %link, align 8
  %18 = load ptr, ptr %place, align 8
  store ptr %17, ptr %18, align 8
  %19 = load ptr, ptr %list.addr, align 8
  %length = getelementptr inbounds %struct.list, ptr %19, i32 0, i32 1
  %20 = load i32, ptr %length, align 8
  %inc = add i32 %20, 1
  store i32 %inc, ptr %length, align 8
  %21 = load ptr, ptr %list.addr, align 8
  %lock7 = getelementptr inbounds %struct.list, ptr %21, i32 0, i32 2
  %call8 = call i32 @pthread_mutex_unlock(ptr noundef %lock7) #6
  store i32 0, ptr %retval, align 4
  br label %return

return:                                           ; preds = %while.end, %if.then
  %22 = load i32, ptr %retval, align 4
  ret i32 %22
}

; Function Attrs: nounwind allocsize(0)
declare noalias ptr @malloc(i64 noundef) #4

; Function Attrs: nounwind
declare i32 @pthread_mutex_lock(ptr noundef) #2

; Function Attrs: nounwind
declare i32 @pthread_mutex_unlock(ptr noundef) #2

attributes #0 = { noinline nounwind optnone uwtable "frame-pointer"="all" "min-legal-vector-width"="0" "no-trapping-math"="true" "stack-protector-buffer-size"="8" "target-cpu"="x86-64" "target-features"="+cmov,+cx8,+fxsr,+mmx,+sse,+sse2,+x87" "tune-cpu"="generic" }
attributes #1 = { nounwind allocsize(0,1) "frame-pointer"="all" "no-trapping-math"="true" "stack-protector-buffer-size"="8" "target-cpu"="x86-64" "target-features"="+cmov,+cx8,+fxsr,+mmx,+sse,+sse2,+x87" "tune-cpu"="generic" }
attributes #2 = { nounwind "frame-pointer"="all" "no-trapping-math"="true" "stack-protector-buffer-size"="8" "target-cpu"="x86-64" "target-features"="+cmov,+cx8,+fxsr,+mmx,+sse,+sse2,+x87" "tune-cpu"="generic" }
attributes #3 = { "frame-pointer"="all" "no-trapping-math"="true" "stack-protector-buffer-size"="8" "target-cpu"="x86-64" "target-features"="+cmov,+cx8,+fxsr,+mmx,+sse,+sse2,+x87" "tune-cpu"="generic" }
attributes #4 = { nounwind allocsize(0) "frame-pointer"="all" "no-trapping-math"="true" "stack-protector-buffer-size"="8" "target-cpu"="x86-64" "target-features"="+cmov,+cx8,+fxsr,+mmx,+sse,+sse2,+x87" "tune-cpu"="generic" }
attributes #5 = { nounwind allocsize(0,1) }
attributes #6 = { nounwind }
attributes #7 = { nounwind allocsize(0) }

!llvm.module.flags = !{!0, !1, !2, !3, !4}
!llvm.ident = !{!5}

!0 = !{i32 1, !"wchar_size", i32 4}
!1 = !{i32 8, !"PIC Level", i32 2}
!2 = !{i32 7, !"PIE Level", i32 2}
!3 = !{i32 7, !"uwtable", i32 2}
!4 = !{i32 7, !"frame-pointer", i32 2}
!5 = !{!"Debian clang version 19.1.7 (3~deb12u1)"}
!6 = distinct !{!6, !7}
!7 = !{!"llvm.loop.mustprogress"}
!8 = distinct !{!8, !7}
!9 = distinct !{!9, !7}
!10 = distinct !{!10, !7}
