; ModuleID = '<stdin>'
source_filename = "two_stores.c"
target datalayout = "e-m:e-p270:32:32-p271:32:32-p272:64:64-i64:64-f80:128-n8:16:32:64-S128"
target triple = "x86_64-pc-linux-gnu"

@first = internal global i64 0, align 8
@second = internal global i64 0, align 8
@letter = internal global i32 64, align 4

; Function Attrs: noinline nounwind uwtable
define dso_local i32 @main() #0 {
  %1 = call i32 @pthread_create(ptr noundef @first, ptr noundef null, ptr noundef @store_a, ptr noundef null) #3
  %2 = call i32 @pthread_create(ptr noundef @second, ptr noundef null, ptr noundef @store_b, ptr noundef null) #3
  %3 = load i64, ptr @first, align 8
  %4 = call i32 @pthread_join(i64 noundef %3, ptr noundef null)
  %5 = load i64, ptr @second, align 8
  %6 = call i32 @pthread_join(i64 noundef %5, ptr noundef null)
  %7 = load i32, ptr @letter, align 4
  %8 = call i32 @putchar(i32 noundef %7)
  ret i32 0
}

; Function Attrs: nounwind
declare i32 @pthread_create(ptr noundef, ptr noundef, ptr noundef, ptr noundef) #1

; Function Attrs: noinline nounwind uwtable
define internal ptr @store_a(ptr noundef %0) #0 {
  store i32 65, ptr @letter, align 4
  ret ptr null
}

; Function Attrs: noinline nounwind uwtable
define internal ptr @store_b(ptr noundef %0) #0 {
  %2 = load i32, ptr @letter, align 4
  %3 = add nsw i32 %2, 1
  store i32 %3, ptr @letter, align 4
  ret ptr null
}

declare i32 @pthread_join(i64 noundef, ptr noundef) #2

declare i32 @putchar(i32 noundef) #2

attributes #0 = { noinline nounwind uwtable "frame-pointer"="all" "min-legal-vector-width"="0" "no-trapping-math"="true" "stack-protector-buffer-size"="8" "target-cpu"="x86-64" "target-features"="+cx8,+fxsr,+mmx,+sse,+sse2,+x87" "tune-cpu"="generic" }
attributes #1 = { nounwind "frame-pointer"="all" "no-trapping-math"="true" "stack-protector-buffer-size"="8" "target-cpu"="x86-64" "target-features"="+cx8,+fxsr,+mmx,+sse,+sse2,+x87" "tune-cpu"="generic" }
attributes #2 = { "frame-pointer"="all" "no-trapping-math"="true" "stack-protector-buffer-size"="8" "target-cpu"="x86-64" "target-features"="+cx8,+fxsr,+mmx,+sse,+sse2,+x87" "tune-cpu"="generic" }
attributes #3 = { nounwind }

!llvm.module.flags = !{!0, !1, !2, !3, !4}
!llvm.ident = !{!5}

!0 = !{i32 1, !"wchar_size", i32 4}
!1 = !{i32 7, !"PIC Level", i32 2}
!2 = !{i32 7, !"PIE Level", i32 2}
!3 = !{i32 7, !"uwtable", i32 1}
!4 = !{i32 7, !"frame-pointer", i32 2}
!5 = !{!"Debian clang version 14.0.6"}
