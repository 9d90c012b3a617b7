;; code-behind-a-branch: what stands after a branch is typed too: a local that isn't there
(assert_invalid (module
(import "env" "putchar" (func $putchar (param i32)))
(func (export "main") (call $putchar (i32.const 65)) (br 0) (drop (local.get 7)))) "unknown local")
