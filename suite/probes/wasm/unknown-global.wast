;; unknown-global: a global that isn't there
(assert_invalid (module
(import "env" "putchar" (func $putchar (param i32)))
(func (export "main") (call $putchar (i32.const 65)) (drop (global.get 0)))) "unknown global")
