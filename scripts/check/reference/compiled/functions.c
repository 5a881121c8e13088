// Functions of several types, most of them called through a table.
typedef int (*Compare)(const int *, const int *);
typedef double (*Combine)(double, float, long long);
typedef unsigned long long (*Mix)(unsigned long long, unsigned);
typedef void (*Step)(void);

struct node {
    struct node *left, *right;
    int key;
    double weight;
};

extern int imported(int, double);
extern long long other(void);

static struct node nodes[64];
static int node_count, steps;
static int keys[64];

static int rising(const int *a, const int *b) { return *a < *b ? -1 : *a > *b; }
static int falling(const int *a, const int *b) { return rising(b, a); }
static double add(double a, float b, long long c) { return a * b + c; }
static double divide(double a, float b, long long c) { return a - b / (c | 1); }
static unsigned long long multiply(unsigned long long a, unsigned b) { return a * 6364136223846793005u + b; }
static unsigned long long rotate(unsigned long long a, unsigned b) { return a << (b & 63) | a >> (-b & 63); }
static void count(void) { steps++; }
static void triple(void) { steps *= 3; }

Compare compares[2] = {rising, falling};
Combine combines[2] = {add, divide};
Mix mixes[2] = {multiply, rotate};
Step trials[2] = {count, triple};

static void sort(int *items, int length, Compare compare) {
    for (int i = 1; i < length; i++)
        for (int j = i; j > 0 && compare(items + j - 1, items + j) > 0; j--) {
            int item = items[j];
            items[j] = items[j - 1];
            items[j - 1] = item;
        }
}

static struct node *insert(struct node *node, int key) {
    if (!node) {
        node = &nodes[node_count++ & 63];
        *node = (struct node){.key = key, .weight = key * 0.5};
    } else if (key < node->key) {
        node->left = insert(node->left, key);
    } else {
        node->right = insert(node->right, key);
    }
    return node;
}

static double sum(struct node *node) { return node ? sum(node->left) + node->weight + sum(node->right) : 0; }

__attribute__((export_name("run"))) double run(int seed) {
    unsigned long long state = seed;
    struct node *root = 0;
    node_count = 0;
    for (int i = 0; i < 64; i++) {
        state = mixes[i & 1](state, i);
        keys[i] = state % 1000;
        root = insert(root, keys[i]);
    }
    sort(keys, 64, compares[seed & 1]);
    trials[seed & 1]();
    double result = sum(root);
    for (int i = 0; i < 64; i++)
        result = combines[(i + seed) & 1](result, keys[i], i);
    return result + steps;
}

__attribute__((export_name("call"))) long long call(int x) { return imported(x, x * 1.5) + other(); }
