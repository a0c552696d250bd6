; ModuleID = 'two_locks.c'
source_filename = "two_locks.c"
target datalayout = "e-m:e-p270:32:32-p271:32:32-p272:64:64-i64:64-f80:128-n8:16:32:64-S128"
target triple = "x86_64-pc-linux-gnu"

%struct.account = type { %union.pthread_mutex_t, i64 }
%union.pthread_mutex_t = type { %struct.__pthread_mutex_s }
%struct.__pthread_mutex_s = type { i32, i32, i32, i32, i32, i16, i16, %struct.__pthread_internal_list }
%struct.__pthread_internal_list = type { ptr, ptr }
%struct.transfer = type { ptr, ptr, i64 }

@savings = internal global %struct.account { %union.pthread_mutex_t zeroinitializer, i64 100 }, align 8
@current = internal global %struct.account { %union.pthread_mutex_t zeroinitializer, i64 50 }, align 8
@__const.main.transfers = private unnamed_addr constant [2 x %struct.transfer] [%struct.transfer { ptr @savings, ptr @current, i64 30 }, %struct.transfer { ptr @current, ptr @savings, i64 20 }], align 16
@.str = private unnamed_addr constant [41 x i8] c"savings.balance + current.balance == 150\00", align 1
@.str.1 = private unnamed_addr constant [12 x i8] c"two_locks.c\00", align 1
@__PRETTY_FUNCTION__.main = private unnamed_addr constant [15 x i8] c"int main(void)\00", align 1
@.str.2 = private unnamed_addr constant [9 x i8] c"%ld %ld\0A\00", align 1

; Function Attrs: noinline nounwind optnone uwtable
define dso_local i32 @main() #0 {
entry:
  %retval = alloca i32, align 4
  %threads = alloca [2 x i64], align 16
  %transfers = alloca [2 x %struct.transfer], align 16
  %i = alloca i32, align 4
  %i4 = alloca i32, align 4
  store i32 0, ptr %retval, align 4
  call void @llvm.memcpy.p0.p0.i64(ptr align 16 %transfers, ptr align 16 @__const.main.transfers, i64 48, i1 false)
  store i32 0, ptr %i, align 4
  br label %for.cond

for.cond:                                         ; preds = %for.inc, %entry
  %0 = load i32, ptr %i, align 4
  %cmp = icmp slt i32 %0, 2
  br i1 %cmp, label %for.body, label %for.end

for.body:                                         ; preds = %for.cond
  %arraydecay = getelementptr inbounds [2 x i64], ptr %threads, i64 0, i64 0
  %1 = load i32, ptr %i, align 4
  %idx.ext = sext i32 %1 to i64
  %add.ptr = getelementptr inbounds i64, ptr %arraydecay, i64 %idx.ext
  %arraydecay1 = getelementptr inbounds [2 x %struct.transfer], ptr %transfers, i64 0, i64 0
  %2 = load i32, ptr %i, align 4
  %idx.ext2 = sext i32 %2 to i64
  %add.ptr3 = getelementptr inbounds %struct.transfer, ptr %arraydecay1, i64 %idx.ext2
  %call = call i32 @pthread_create(ptr noundef %add.ptr, ptr noundef null, ptr noundef @move, ptr noundef %add.ptr3) #5
  br label %for.inc

for.inc:                                          ; preds = %for.body
  %3 = load i32, ptr %i, align 4
  %inc = add nsw i32 %3, 1
  store i32 %inc, ptr %i, align 4
  br label %for.cond, !llvm.loop !6

for.end:                                          ; preds = %for.cond
  store i32 0, ptr %i4, align 4
  br label %for.cond5

for.cond5:                                        ; preds = %for.inc9, %for.end
  %4 = load i32, ptr %i4, align 4
  %cmp6 = icmp slt i32 %4, 2
  br i1 %cmp6, label %for.body7, label %for.end11

for.body7:                                        ; preds = %for.cond5
  %5 = load i32, ptr %i4, align 4
  %idxprom = sext i32 %5 to i64
  %arrayidx = getelementptr inbounds [2 x i64], ptr %threads, i64 0, i64 %idxprom
  %6 = load i64, ptr %arrayidx, align 8
  %call8 = call i32 @pthread_join(i64 noundef %6, ptr noundef null)
  br label %for.inc9

for.inc9:                                         ; preds = %for.body7
  %7 = load i32, ptr %i4, align 4
  %inc10 = add nsw i32 %7, 1
  store i32 %inc10, ptr %i4, align 4
  br label %for.cond5, !llvm.loop !8

for.end11:                                        ; preds = %for.cond5
  %8 = load i64, ptr getelementptr inbounds (%struct.account, ptr @savings, i32 0, i32 1), align 8
  %9 = load i64, ptr getelementptr inbounds (%struct.account, ptr @current, i32 0, i32 1), align 8
  %add = add nsw i64 %8, %9
  %cmp12 = icmp eq i64 %add, 150
  br i1 %cmp12, label %if.then, label %if.else

if.then:                                          ; preds = %for.end11
  br label %if.end

if.else:                                          ; preds = %for.end11
  call void @__assert_fail(ptr noundef @.str, ptr noundef @.str.1, i32 noundef 43, ptr noundef @__PRETTY_FUNCTION__.main) #6
  unreachable

if.end:                                           ; preds = %if.then
  %10 = load i64, ptr getelementptr inbounds (%struct.account, ptr @savings, i32 0, i32 1), align 8
  %11 = load i64, ptr getelementptr inbounds (%struct.account, ptr @current, i32 0, i32 1), align 8
  %call13 = call i32 (ptr, ...) @printf(ptr noundef @.str.2, i64 noundef %10, i64 noundef %11)
  ret i32 0
}

; Function Attrs: argmemonly nocallback nofree nounwind willreturn
declare void @llvm.memcpy.p0.p0.i64(ptr noalias nocapture writeonly, ptr noalias nocapture readonly, i64, i1 immarg) #1

; Function Attrs: nounwind
declare i32 @pthread_create(ptr noundef, ptr noundef, ptr noundef, ptr noundef) #2

; Function Attrs: noinline nounwind optnone uwtable
define internal ptr @move(ptr noundef %argument) #0 {
entry:
  %argument.addr = alloca ptr, align 8
  %transfer = alloca ptr, align 8
  store ptr %argument, ptr %argument.addr, align 8
  %0 = load ptr, ptr %argument.addr, align 8
  store ptr %0, ptr %transfer, align 8
  %1 = load ptr, ptr %transfer, align 8
  %from = getelementptr inbounds %struct.transfer, ptr %1, i32 0, i32 0
  %2 = load ptr, ptr %from, align 8
  %lock = getelementptr inbounds %struct.account, ptr %2, i32 0, i32 0
  %call = call i32 @pthread_mutex_lock(ptr noundef %lock) #5
  %3 = load ptr, ptr %transfer, align 8
  %to = getelementptr inbounds %struct.transfer, ptr %3, i32 0, i32 1
  %4 = load ptr, ptr %to, align 8
  %lock1 = getelementptr inbounds %struct.account, ptr %4, i32 0, i32 0
  %call2 = call i32 @pthread_mutex_lock(ptr noundef %lock1) #5
  %5 = load ptr, ptr %transfer, align 8
  %from3 = getelementptr inbounds %struct.transfer, ptr %5, i32 0, i32 0
  %6 = load ptr, ptr %from3, align 8
  %balance = getelementptr inbounds %struct.account, ptr %6, i32 0, i32 1
  %7 = load i64, ptr %balance, align 8
  %8 = load ptr, ptr %transfer, align 8
  %amount = getelementptr inbounds %struct.transfer, ptr %8, i32 0, i32 2
  %9 = load i64, ptr %amount, align 8
  %cmp = icmp sge i64 %7, %9
  br i1 %cmp, label %if.then, label %if.end

if.then:                                          ; preds = %entry
  %10 = load ptr, ptr %transfer, align 8
  %amount4 = getelementptr inbounds %struct.transfer, ptr %10, i32 0, i32 2
  %11 = load i64, ptr %amount4, align 8
  %12 = load ptr, ptr %transfer, align 8
  %from5 = getelementptr inbounds %struct.transfer, ptr %12, i32 0, i32 0
  %13 = load ptr, ptr %from5, align 8
  %balance6 = getelementptr inbounds %struct.account, ptr %13, i32 0, i32 1
  %14 = load i64, ptr %balance6, align 8
  %sub = sub nsw i64 %14, %11
  store i64 %sub, ptr %balance6, align 8
  %15 = load ptr, ptr %transfer, align 8
  %amount7 = getelementptr inbounds %struct.transfer, ptr %15, i32 0, i32 2
  %16 = load i64, ptr %amount7, align 8
  %17 = load ptr, ptr %transfer, align 8
  %to8 = getelementptr inbounds %struct.transfer, ptr %17, i32 0, i32 1
  %18 = load ptr, ptr %to8, align 8
  %balance9 = getelementptr inbounds %struct.account, ptr %18, i32 0, i32 1
  %19 = load i64, ptr %balance9, align 8
  %add = add nsw i64 %19, %16
  store i64 %add, ptr %balance9, align 8
  br label %if.end

if.end:                                           ; preds = %if.then, %entry
  %20 = load ptr, ptr %transfer, align 8
  %to10 = getelementptr inbounds %struct.transfer, ptr %20, i32 0, i32 1
  %21 = load ptr, ptr %to10, align 8
  %lock11 = getelementptr inbounds %struct.account, ptr %21, i32 0, i32 0
  %call12 = call i32 @pthread_mutex_unlock(ptr noundef %lock11) #5
  %22 = load ptr, ptr %transfer, align 8
  %from13 = getelementptr inbounds %struct.transfer, ptr %22, i32 0, i32 0
  %23 = load ptr, ptr %from13, align 8
  %lock14 = getelementptr inbounds %struct.account, ptr %23, i32 0, i32 0
  %call15 = call i32 @pthread_mutex_unlock(ptr noundef %lock14) #5
  ret ptr null
}

declare i32 @pthread_join(i64 noundef, ptr noundef) #3

; Function Attrs: noreturn nounwind
declare void @__assert_fail(ptr noundef, ptr noundef, i32 noundef, ptr noundef) #4

declare i32 @printf(ptr noundef, ...) #3

; Function Attrs: nounwind
declare i32 @pthread_mutex_lock(ptr noundef) #2

; Function Attrs: nounwind
declare i32 @pthread_mutex_unlock(ptr noundef) #2

attributes #0 = { noinline nounwind optnone uwtable "frame-pointer"="all" "min-legal-vector-width"="0" "no-trapping-math"="true" "stack-protector-buffer-size"="8" "target-cpu"="x86-64" "target-features"="+cx8,+fxsr,+mmx,+sse,+sse2,+x87" "tune-cpu"="generic" }
attributes #1 = { argmemonly nocallback nofree nounwind willreturn }
attributes #2 = { nounwind "frame-pointer"="all" "no-trapping-math"="true" "stack-protector-buffer-size"="8" "target-cpu"="x86-64" "target-features"="+cx8,+fxsr,+mmx,+sse,+sse2,+x87" "tune-cpu"="generic" }
attributes #3 = { "frame-pointer"="all" "no-trapping-math"="true" "stack-protector-buffer-size"="8" "target-cpu"="x86-64" "target-features"="+cx8,+fxsr,+mmx,+sse,+sse2,+x87" "tune-cpu"="generic" }
attributes #4 = { noreturn nounwind "frame-pointer"="all" "no-trapping-math"="true" "stack-protector-buffer-size"="8" "target-cpu"="x86-64" "target-features"="+cx8,+fxsr,+mmx,+sse,+sse2,+x87" "tune-cpu"="generic" }
attributes #5 = { nounwind }
attributes #6 = { noreturn nounwind }

!llvm.module.flags = !{!0, !1, !2, !3, !4}
!llvm.ident = !{!5}

!0 = !{i32 1, !"wchar_size", i32 4}
!1 = !{i32 7, !"PIC Level", i32 2}
!2 = !{i32 7, !"PIE Level", i32 2}
!3 = !{i32 7, !"uwtable", i32 2}
!4 = !{i32 7, !"frame-pointer", i32 2}
!5 = !{!"Debian clang version 15.0.6"}
!6 = distinct !{!6, !7}
!7 = !{!"llvm.loop.mustprogress"}
!8 = distinct !{!8, !7}
