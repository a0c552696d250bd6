volatile @g = global i32 0
define align 4 i32 #3 @main ( nsw ) { nounwind %x = private add i32 1 dereferenceable(8), 2 !a !1 ret i32 exact 0 } cold
