;; constant-global-set: a set of a global that isn't variable
(assert_invalid (module
(import "env" "putchar" (func $putchar (param i32)))
(global i32 (i32.const 1))
(func (export "main") (call $putchar (i32.const 65)) (global.set 0 (i32.const 2)))) "global is immutable")
