;; unknown-local: a local that isn't there
(assert_invalid (module
(import "env" "putchar" (func $putchar (param i32)))
(func (export "main") (call $putchar (i32.const 65)) (drop (local.get 0)))) "unknown local")
