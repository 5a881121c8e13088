// Vectors, atomic operations and tail calls.
typedef int Ints __attribute__((vector_size(16)));
typedef float Floats __attribute__((vector_size(16)));
typedef int (*Parity)(int);

static int counter;

__attribute__((export_name("lanes"))) int lanes(int a) {
    Ints x = {a, a + 1, a + 2, a + 3}, y = {1, 2, 3, 4};
    Ints z = x * y + (x >> 1);
    Floats f = __builtin_convertvector(z, Floats);
    Ints mixed = __builtin_shufflevector(z, x, 0, 5, 2, 7);
    return z[0] + z[3] + (int)(f * f)[2] + mixed[1];
}

__attribute__((export_name("bump"))) int bump(int a) {
    int expected = a;
    __atomic_fetch_add(&counter, a, __ATOMIC_SEQ_CST);
    __atomic_thread_fence(__ATOMIC_SEQ_CST);
    __atomic_compare_exchange_n(&counter, &expected, 7, 0, __ATOMIC_SEQ_CST, __ATOMIC_SEQ_CST);
    return __atomic_load_n(&counter, __ATOMIC_SEQ_CST) + expected;
}

__attribute__((export_name("total"))) double total(long long a, float b) {
    counter++;
    return a * b;
}

__attribute__((export_name("reset"))) void reset(void) { __atomic_store_n(&counter, 0, __ATOMIC_SEQ_CST); }

static int odd(int n);
static int even(int n) {
    if (n == 0)
        return 1;
    __attribute__((musttail)) return odd(n - 1);
}
static int odd(int n) {
    if (n == 0)
        return 0;
    __attribute__((musttail)) return even(n - 1);
}

Parity parities[2] = {even, odd};

__attribute__((export_name("parity"))) int parity(int n) {
    __attribute__((musttail)) return parities[n & 1](n);
}
