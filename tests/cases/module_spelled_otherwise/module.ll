; a comment with "quotes"
	@"g"=global i32 0064 ; and another
@t = global i64 -0

declare i32@pthread_create(ptr,ptr,ptr,ptr)
declare i32 @"pthread_join"(i64, ptr)
declare i32 @putchar ( i32 )
define i32 @main(){
%1 = call i32 @"pthread_create"(ptr @t, ptr null, ptr @"a", ptr null)
%2 = load i64, ptr @t
%";x" = call i32 @pthread_join(i64 %002, ptr null)
%99999999999999999999999999 = load i32, ptr @g
%"%" = call i32 @putchar(i32 %99999999999999999999999999)
ret i32 256
}
define ptr @a(ptr %0) {
%2 = load i32, ptr @g
%3 = add i32 %2, 18446744073709551553
%x = add i32 %3, 64
store i32 %x, ptr @g
ret ptr null
}
