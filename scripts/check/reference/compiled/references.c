// References from outside, in a table and from a function to another one.
static __externref_t objects[0];

extern __externref_t imported(int, __externref_t);
extern void noted(long long);

__attribute__((export_name("replace"))) __externref_t replace(int index, __externref_t object) {
    __builtin_wasm_table_set(objects, index, imported(index, object));
    noted(index);
    return __builtin_wasm_table_get(objects, index);
}

__attribute__((export_name("size"))) int size(void) { return __builtin_wasm_table_size(objects); }
