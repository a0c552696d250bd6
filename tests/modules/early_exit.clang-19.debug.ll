; ModuleID = 'early_exit.c'
source_filename = "early_exit.c"
target datalayout = "e-m:e-p270:32:32-p271:32:32-p272:64:64-i64:64-i128:128-f80:128-n8:16:32:64-S128"
target triple = "x86_64-pc-linux-gnu"

@main.limit = internal global i32 6, align 4, !dbg !0
@watcher = internal global i64 0, align 8, !dbg !18
@.str = private unnamed_addr constant [13 x i8] c"progress %d\0A\00", align 1, !dbg !12
@progress = internal global i32 0, align 4, !dbg !28
@.str.1 = private unnamed_addr constant [10 x i8] c"limit %d\0A\00", align 1, !dbg !23
@.str.2 = private unnamed_addr constant [26 x i8] c"pthread_self() != watcher\00", align 1, !dbg !30
@.str.3 = private unnamed_addr constant [13 x i8] c"early_exit.c\00", align 1, !dbg !35
@__PRETTY_FUNCTION__.work = private unnamed_addr constant [19 x i8] c"void *work(void *)\00", align 1, !dbg !37

; Function Attrs: noinline nounwind optnone uwtable
define dso_local i32 @main() #0 !dbg !2 {
  %1 = alloca i32, align 4
  %2 = alloca i64, align 8
  %3 = alloca ptr, align 8
  store i32 0, ptr %1, align 4
    #dbg_declare(ptr %2, !52, !DIExpression(), !53)
    #dbg_declare(ptr %3, !54, !DIExpression(), !55)
  %4 = call i32 @pthread_create(ptr noundef @watcher, ptr noundef null, ptr noundef @watch, ptr noundef @main.limit) #6, !dbg !56
  %5 = icmp ne i32 %4, 0, !dbg !56
  br i1 %5, label %6, label %7, !dbg !58

6:                                                ; preds = %0
  store i32 1, ptr %1, align 4, !dbg !59
  br label %17, !dbg !59

7:                                                ; preds = %0
  %8 = call i32 @pthread_create(ptr noundef %2, ptr noundef null, ptr noundef @work, ptr noundef null) #6, !dbg !61
  %9 = icmp ne i32 %8, 0, !dbg !61
  br i1 %9, label %10, label %11, !dbg !63

10:                                               ; preds = %7
  store i32 1, ptr %1, align 4, !dbg !64
  br label %17, !dbg !64

11:                                               ; preds = %7
  %12 = load i64, ptr %2, align 8, !dbg !66
  %13 = call i32 @pthread_join(i64 noundef %12, ptr noundef %3), !dbg !67
  %14 = load ptr, ptr %3, align 8, !dbg !68
  %15 = load i32, ptr %14, align 4, !dbg !69
  %16 = call i32 (ptr, ...) @printf(ptr noundef @.str, i32 noundef %15), !dbg !70
  store i32 0, ptr %1, align 4, !dbg !71
  br label %17, !dbg !71

17:                                               ; preds = %11, %10, %6
  %18 = load i32, ptr %1, align 4, !dbg !72
  ret i32 %18, !dbg !72
}

; Function Attrs: nounwind
declare i32 @pthread_create(ptr noundef, ptr noundef, ptr noundef, ptr noundef) #1

; Function Attrs: noinline nounwind optnone uwtable
define internal ptr @watch(ptr noundef %0) #0 !dbg !73 {
  %2 = alloca ptr, align 8
  store ptr %0, ptr %2, align 8
    #dbg_declare(ptr %2, !76, !DIExpression(), !77)
  br label %3, !dbg !78

3:                                                ; preds = %8, %1
  %4 = load i32, ptr @progress, align 4, !dbg !79
  %5 = load ptr, ptr %2, align 8, !dbg !80
  %6 = load i32, ptr %5, align 4, !dbg !81
  %7 = icmp slt i32 %4, %6, !dbg !82
  br i1 %7, label %8, label %10, !dbg !78

8:                                                ; preds = %3
  %9 = call i32 @sleep(i32 noundef 1), !dbg !83
  br label %3, !dbg !78, !llvm.loop !85

10:                                               ; preds = %3
  %11 = load ptr, ptr %2, align 8, !dbg !88
  %12 = load i32, ptr %11, align 4, !dbg !89
  %13 = call i32 (ptr, ...) @printf(ptr noundef @.str.1, i32 noundef %12), !dbg !90
  call void @exit(i32 noundef 3) #7, !dbg !91
  unreachable, !dbg !91
}

; Function Attrs: noinline nounwind optnone uwtable
define internal ptr @work(ptr noundef %0) #0 !dbg !92 {
  %2 = alloca ptr, align 8
  %3 = alloca i32, align 4
  store ptr %0, ptr %2, align 8
    #dbg_declare(ptr %2, !93, !DIExpression(), !94)
  %4 = call i64 @pthread_self() #8, !dbg !95
  %5 = load i64, ptr @watcher, align 8, !dbg !95
  %6 = icmp ne i64 %4, %5, !dbg !95
  br i1 %6, label %7, label %8, !dbg !98

7:                                                ; preds = %1
  br label %9, !dbg !98

8:                                                ; preds = %1
  call void @__assert_fail(ptr noundef @.str.2, ptr noundef @.str.3, i32 noundef 22, ptr noundef @__PRETTY_FUNCTION__.work) #7, !dbg !95
  unreachable, !dbg !95

9:                                                ; preds = %7
    #dbg_declare(ptr %3, !99, !DIExpression(), !101)
  store i32 0, ptr %3, align 4, !dbg !101
  br label %10, !dbg !102

10:                                               ; preds = %21, %9
  %11 = load i32, ptr %3, align 4, !dbg !103
  %12 = icmp slt i32 %11, 5, !dbg !105
  br i1 %12, label %13, label %24, !dbg !106

13:                                               ; preds = %10
  %14 = load i32, ptr %3, align 4, !dbg !107
  %15 = srem i32 %14, 2, !dbg !109
  %16 = icmp ne i32 %15, 0, !dbg !107
  %17 = zext i1 %16 to i64, !dbg !107
  %18 = select i1 %16, i32 2, i32 1, !dbg !107
  %19 = load i32, ptr @progress, align 4, !dbg !110
  %20 = add nsw i32 %19, %18, !dbg !110
  store i32 %20, ptr @progress, align 4, !dbg !110
  br label %21, !dbg !111

21:                                               ; preds = %13
  %22 = load i32, ptr %3, align 4, !dbg !112
  %23 = add nsw i32 %22, 1, !dbg !112
  store i32 %23, ptr %3, align 4, !dbg !112
  br label %10, !dbg !113, !llvm.loop !114

24:                                               ; preds = %10
  call void @pthread_exit(ptr noundef @progress) #9, !dbg !116
  unreachable, !dbg !116
}

declare i32 @pthread_join(i64 noundef, ptr noundef) #2

declare i32 @printf(ptr noundef, ...) #2

declare i32 @sleep(i32 noundef) #2

; Function Attrs: noreturn nounwind
declare void @exit(i32 noundef) #3

; Function Attrs: nounwind willreturn memory(none)
declare i64 @pthread_self() #4

; Function Attrs: noreturn nounwind
declare void @__assert_fail(ptr noundef, ptr noundef, i32 noundef, ptr noundef) #3

; Function Attrs: noreturn
declare void @pthread_exit(ptr noundef) #5

attributes #0 = { noinline nounwind optnone uwtable "frame-pointer"="all" "min-legal-vector-width"="0" "no-trapping-math"="true" "stack-protector-buffer-size"="8" "target-cpu"="x86-64" "target-features"="+cmov,+cx8,+fxsr,+mmx,+sse,+sse2,+x87" "tune-cpu"="generic" }
attributes #1 = { nounwind "frame-pointer"="all" "no-trapping-math"="true" "stack-protector-buffer-size"="8" "target-cpu"="x86-64" "target-features"="+cmov,+cx8,+fxsr,+mmx,+sse,+sse2,+x87" "tune-cpu"="generic" }
attributes #2 = { "frame-pointer"="all" "no-trapping-math"="true" "stack-protector-buffer-size"="8" "target-cpu"="x86-64" "target-features"="+cmov,+cx8,+fxsr,+mmx,+sse,+sse2,+x87" "tune-cpu"="generic" }
attributes #3 = { noreturn nounwind "frame-pointer"="all" "no-trapping-math"="true" "stack-protector-buffer-size"="8" "target-cpu"="x86-64" "target-features"="+cmov,+cx8,+fxsr,+mmx,+sse,+sse2,+x87" "tune-cpu"="generic" }
attributes #4 = { nounwind willreturn memory(none) "frame-pointer"="all" "no-trapping-math"="true" "stack-protector-buffer-size"="8" "target-cpu"="x86-64" "target-features"="+cmov,+cx8,+fxsr,+mmx,+sse,+sse2,+x87" "tune-cpu"="generic" }
attributes #5 = { noreturn "frame-pointer"="all" "no-trapping-math"="true" "stack-protector-buffer-size"="8" "target-cpu"="x86-64" "target-features"="+cmov,+cx8,+fxsr,+mmx,+sse,+sse2,+x87" "tune-cpu"="generic" }
attributes #6 = { nounwind }
attributes #7 = { noreturn nounwind }
attributes #8 = { nounwind willreturn memory(none) }
attributes #9 = { noreturn }

!llvm.dbg.cu = !{!7}
!llvm.module.flags = !{!44, !45, !46, !47, !48, !49, !50}
!llvm.ident = !{!51}

!0 = !DIGlobalVariableExpression(var: !1, expr: !DIExpression())
!1 = distinct !DIGlobalVariable(name: "limit", scope: !2, file: !3, line: 31, type: !6, isLocal: true, isDefinition: true)
!2 = distinct !DISubprogram(name: "main", scope: !3, file: !3, line: 29, type: !4, scopeLine: 30, flags: DIFlagPrototyped, spFlags: DISPFlagDefinition, unit: !7, retainedNodes: !43)
!3 = !DIFile(filename: "early_exit.c", directory: ".", checksumkind: CSK_MD5, checksum: "515dd73ce8c109d7e54dea7496bcf22f")
!4 = !DISubroutineType(types: !5)
!5 = !{!6}
!6 = !DIBasicType(name: "int", size: 32, encoding: DW_ATE_signed)
!7 = distinct !DICompileUnit(language: DW_LANG_C11, file: !3, producer: "Debian clang version 19.1.7 (3~deb12u1)", isOptimized: false, runtimeVersion: 0, emissionKind: FullDebug, retainedTypes: !8, globals: !11, splitDebugInlining: false, nameTableKind: None)
!8 = !{!9, !10}
!9 = !DIDerivedType(tag: DW_TAG_pointer_type, baseType: null, size: 64)
!10 = !DIDerivedType(tag: DW_TAG_pointer_type, baseType: !6, size: 64)
!11 = !{!0, !12, !18, !23, !28, !30, !35, !37}
!12 = !DIGlobalVariableExpression(var: !13, expr: !DIExpression())
!13 = distinct !DIGlobalVariable(scope: null, file: !3, line: 42, type: !14, isLocal: true, isDefinition: true)
!14 = !DICompositeType(tag: DW_TAG_array_type, baseType: !15, size: 104, elements: !16)
!15 = !DIBasicType(name: "char", size: 8, encoding: DW_ATE_signed_char)
!16 = !{!17}
!17 = !DISubrange(count: 13)
!18 = !DIGlobalVariableExpression(var: !19, expr: !DIExpression())
!19 = distinct !DIGlobalVariable(name: "watcher", scope: !7, file: !3, line: 9, type: !20, isLocal: true, isDefinition: true)
!20 = !DIDerivedType(tag: DW_TAG_typedef, name: "pthread_t", file: !21, line: 27, baseType: !22)
!21 = !DIFile(filename: "include/x86_64-linux-gnu/bits/pthreadtypes.h", directory: "", checksumkind: CSK_MD5, checksum: "735e3bf264ff9d8f5d95898b1692fbdb")
!22 = !DIBasicType(name: "unsigned long", size: 64, encoding: DW_ATE_unsigned)
!23 = !DIGlobalVariableExpression(var: !24, expr: !DIExpression())
!24 = distinct !DIGlobalVariable(scope: null, file: !3, line: 16, type: !25, isLocal: true, isDefinition: true)
!25 = !DICompositeType(tag: DW_TAG_array_type, baseType: !15, size: 80, elements: !26)
!26 = !{!27}
!27 = !DISubrange(count: 10)
!28 = !DIGlobalVariableExpression(var: !29, expr: !DIExpression())
!29 = distinct !DIGlobalVariable(name: "progress", scope: !7, file: !3, line: 8, type: !6, isLocal: true, isDefinition: true)
!30 = !DIGlobalVariableExpression(var: !31, expr: !DIExpression())
!31 = distinct !DIGlobalVariable(scope: null, file: !3, line: 22, type: !32, isLocal: true, isDefinition: true)
!32 = !DICompositeType(tag: DW_TAG_array_type, baseType: !15, size: 208, elements: !33)
!33 = !{!34}
!34 = !DISubrange(count: 26)
!35 = !DIGlobalVariableExpression(var: !36, expr: !DIExpression())
!36 = distinct !DIGlobalVariable(scope: null, file: !3, line: 22, type: !14, isLocal: true, isDefinition: true)
!37 = !DIGlobalVariableExpression(var: !38, expr: !DIExpression())
!38 = distinct !DIGlobalVariable(scope: null, file: !3, line: 22, type: !39, isLocal: true, isDefinition: true)
!39 = !DICompositeType(tag: DW_TAG_array_type, baseType: !40, size: 152, elements: !41)
!40 = !DIDerivedType(tag: DW_TAG_const_type, baseType: !15)
!41 = !{!42}
!42 = !DISubrange(count: 19)
!43 = !{}
!44 = !{i32 7, !"Dwarf Version", i32 5}
!45 = !{i32 2, !"Debug Info Version", i32 3}
!46 = !{i32 1, !"wchar_size", i32 4}
!47 = !{i32 8, !"PIC Level", i32 2}
!48 = !{i32 7, !"PIE Level", i32 2}
!49 = !{i32 7, !"uwtable", i32 2}
!50 = !{i32 7, !"frame-pointer", i32 2}
!51 = !{!"Debian clang version 19.1.7 (3~deb12u1)"}
!52 = !DILocalVariable(name: "worker", scope: !2, file: !3, line: 32, type: !20)
!53 = !DILocation(line: 32, column: 15, scope: !2)
!54 = !DILocalVariable(name: "last", scope: !2, file: !3, line: 33, type: !9)
!55 = !DILocation(line: 33, column: 11, scope: !2)
!56 = !DILocation(line: 35, column: 9, scope: !57)
!57 = distinct !DILexicalBlock(scope: !2, file: !3, line: 35, column: 9)
!58 = !DILocation(line: 35, column: 9, scope: !2)
!59 = !DILocation(line: 36, column: 9, scope: !60)
!60 = distinct !DILexicalBlock(scope: !57, file: !3, line: 35, column: 56)
!61 = !DILocation(line: 38, column: 9, scope: !62)
!62 = distinct !DILexicalBlock(scope: !2, file: !3, line: 38, column: 9)
!63 = !DILocation(line: 38, column: 9, scope: !2)
!64 = !DILocation(line: 39, column: 9, scope: !65)
!65 = distinct !DILexicalBlock(scope: !62, file: !3, line: 38, column: 52)
!66 = !DILocation(line: 41, column: 18, scope: !2)
!67 = !DILocation(line: 41, column: 5, scope: !2)
!68 = !DILocation(line: 42, column: 37, scope: !2)
!69 = !DILocation(line: 42, column: 29, scope: !2)
!70 = !DILocation(line: 42, column: 5, scope: !2)
!71 = !DILocation(line: 43, column: 5, scope: !2)
!72 = !DILocation(line: 44, column: 1, scope: !2)
!73 = distinct !DISubprogram(name: "watch", scope: !3, file: !3, line: 11, type: !74, scopeLine: 12, flags: DIFlagPrototyped, spFlags: DISPFlagLocalToUnit | DISPFlagDefinition, unit: !7, retainedNodes: !43)
!74 = !DISubroutineType(types: !75)
!75 = !{!9, !9}
!76 = !DILocalVariable(name: "limit", arg: 1, scope: !73, file: !3, line: 11, type: !9)
!77 = !DILocation(line: 11, column: 26, scope: !73)
!78 = !DILocation(line: 13, column: 5, scope: !73)
!79 = !DILocation(line: 13, column: 12, scope: !73)
!80 = !DILocation(line: 13, column: 31, scope: !73)
!81 = !DILocation(line: 13, column: 23, scope: !73)
!82 = !DILocation(line: 13, column: 21, scope: !73)
!83 = !DILocation(line: 14, column: 9, scope: !84)
!84 = distinct !DILexicalBlock(scope: !73, file: !3, line: 13, column: 38)
!85 = distinct !{!85, !78, !86, !87}
!86 = !DILocation(line: 15, column: 5, scope: !73)
!87 = !{!"llvm.loop.mustprogress"}
!88 = !DILocation(line: 16, column: 34, scope: !73)
!89 = !DILocation(line: 16, column: 26, scope: !73)
!90 = !DILocation(line: 16, column: 5, scope: !73)
!91 = !DILocation(line: 17, column: 5, scope: !73)
!92 = distinct !DISubprogram(name: "work", scope: !3, file: !3, line: 20, type: !74, scopeLine: 21, flags: DIFlagPrototyped, spFlags: DISPFlagLocalToUnit | DISPFlagDefinition, unit: !7, retainedNodes: !43)
!93 = !DILocalVariable(name: "unused", arg: 1, scope: !92, file: !3, line: 20, type: !9)
!94 = !DILocation(line: 20, column: 25, scope: !92)
!95 = !DILocation(line: 22, column: 5, scope: !96)
!96 = distinct !DILexicalBlock(scope: !97, file: !3, line: 22, column: 5)
!97 = distinct !DILexicalBlock(scope: !92, file: !3, line: 22, column: 5)
!98 = !DILocation(line: 22, column: 5, scope: !97)
!99 = !DILocalVariable(name: "i", scope: !100, file: !3, line: 23, type: !6)
!100 = distinct !DILexicalBlock(scope: !92, file: !3, line: 23, column: 5)
!101 = !DILocation(line: 23, column: 14, scope: !100)
!102 = !DILocation(line: 23, column: 10, scope: !100)
!103 = !DILocation(line: 23, column: 21, scope: !104)
!104 = distinct !DILexicalBlock(scope: !100, file: !3, line: 23, column: 5)
!105 = !DILocation(line: 23, column: 23, scope: !104)
!106 = !DILocation(line: 23, column: 5, scope: !100)
!107 = !DILocation(line: 24, column: 21, scope: !108)
!108 = distinct !DILexicalBlock(scope: !104, file: !3, line: 23, column: 33)
!109 = !DILocation(line: 24, column: 23, scope: !108)
!110 = !DILocation(line: 24, column: 18, scope: !108)
!111 = !DILocation(line: 25, column: 5, scope: !108)
!112 = !DILocation(line: 23, column: 29, scope: !104)
!113 = !DILocation(line: 23, column: 5, scope: !104)
!114 = distinct !{!114, !106, !115, !87}
!115 = !DILocation(line: 25, column: 5, scope: !100)
!116 = !DILocation(line: 26, column: 5, scope: !92)
