/* Included first where the kit's clang compiles what the machine's compiler does too: one program has both. */
#define rendered_fma32 kit_fma32
#define rendered_fma64 kit_fma64
#define rendered_root32 kit_root32
#define rendered_size32 kit_size32
#define rendered_size64 kit_size64
#define rendered_truncated kit_truncated
#define rendered_narrowed kit_narrowed
#define soft kit_soft
#define musl kit_musl
#define hardware kit_hardware
