/* An interval tree under a spin lock, as the range locks of Lustre and those proposed for Linux (Jan Kara, 2013): who
   asks for a range counts the ranges in the tree that are in conflict with it, puts its own beside them, and waits until
   that many were given back. So it is fair: a range waits for those that were asked for earlier, also where these wait
   themselves. Once with readers and writers, and once as if each were a writer, as Lustre's was.

   The tree is a treap where the kernel has a red-black tree: as many intervals as threads stand in it. A thread that
   waits turns, and then lets others run; the kernel lets it sleep. */
#include "peer.h"

#include <stdatomic.h>

typedef struct node {
    _Alignas(64) struct node *left, *right;
    uint64_t lo, hi, highest; /* the highest end of the node and of all below it */
    uint32_t priority;
    bool writer;
    atomic_uint waits_for;
} node;

static node nodes[MOST_THREADS];
static node *root;
static _Alignas(64) atomic_bool taken;

static void lock(void) {
    for (unsigned turns = 0; atomic_exchange_explicit(&taken, true, memory_order_acquire);)
        while (atomic_load_explicit(&taken, memory_order_relaxed)) wait_a_turn(&turns);
}

static void unlock(void) { atomic_store_explicit(&taken, false, memory_order_release); }

/* A node is before another one by its start, and by its place where these are the same. */
static bool is_before(const node *a, const node *b) { return a->lo != b->lo ? a->lo < b->lo : a < b; }

static void update(node *n) {
    n->highest = n->hi;
    if (n->left && n->left->highest > n->highest) n->highest = n->left->highest;
    if (n->right && n->right->highest > n->highest) n->highest = n->right->highest;
}

/* Splits a tree into the nodes before a node and those behind it. */
static void split(node *tree, const node *at, node **before, node **behind) {
    if (!tree) {
        *before = *behind = NULL;
    } else if (is_before(tree, at)) {
        *before = tree;
        split(tree->right, at, &tree->right, behind);
        update(tree);
    } else {
        *behind = tree;
        split(tree->left, at, before, &tree->left);
        update(tree);
    }
}

/* Joins two trees, of which all nodes of the first are before those of the second. */
static node *join(node *before, node *behind) {
    if (!before) return behind;
    if (!behind) return before;
    if (before->priority > behind->priority) {
        before->right = join(before->right, behind);
        update(before);
        return before;
    }
    behind->left = join(before, behind->left);
    update(behind);
    return behind;
}

static void insert(node **tree, node *new) {
    if (*tree && (*tree)->priority >= new->priority) {
        insert(is_before(*tree, new) ? &(*tree)->right : &(*tree)->left, new);
        update(*tree);
        return;
    }
    split(*tree, new, &new->left, &new->right);
    update(new);
    *tree = new;
}

static void delete(node **tree, node *old) {
    if (*tree == old) {
        *tree = join(old->left, old->right);
        return;
    }
    delete(is_before(*tree, old) ? &(*tree)->right : &(*tree)->left, old);
    update(*tree);
}

/* Counts the nodes that are in conflict with one, which isn't in the tree, and takes 1 from what each of them waits for
   where that is asked. */
static unsigned conflicts(node *tree, const node *with, bool gone) {
    if (!tree || tree->highest <= with->lo) return 0;
    unsigned count = conflicts(tree->left, with, gone);
    if (tree->lo >= with->hi) return count;
    if (tree->hi > with->lo && (tree->writer || with->writer)) {
        count++;
        if (gone) atomic_fetch_sub_explicit(&tree->waits_for, 1, memory_order_release);
    }
    return count + conflicts(tree->right, with, gone);
}

static void open_tree(unsigned threads, uint64_t slots, unsigned regions) {
    (void)slots, (void)regions;
    root = NULL;
    for (unsigned i = 0; i < threads; i++) nodes[i] = (node){ .priority = (i + 1) * 0x9e3779b9u };
}

static void take(unsigned thread, uint64_t lo, uint64_t hi, bool writer) {
    node *mine = &nodes[thread];
    mine->lo = lo, mine->hi = hi, mine->writer = writer;
    lock();
    atomic_store_explicit(&mine->waits_for, conflicts(root, mine, false), memory_order_relaxed);
    insert(&root, mine);
    unlock();
    for (unsigned turns = 0; atomic_load_explicit(&mine->waits_for, memory_order_acquire) > 0;) wait_a_turn(&turns);
}

/* Those that are in conflict with it now asked for their ranges later, and so each waits for it. */
static void give_back(unsigned thread, uint64_t lo, uint64_t hi, bool writer) {
    (void)lo, (void)hi, (void)writer;
    node *mine = &nodes[thread];
    lock();
    delete(&root, mine);
    conflicts(root, mine, true);
    unlock();
}

static void take_exclusive(unsigned thread, uint64_t lo, uint64_t hi, bool writer) {
    (void)writer;
    take(thread, lo, hi, true);
}

static void close_tree(void) {}

const peer tree_shared = { "interval tree", true, open_tree, take, give_back, close_tree };
const peer tree_exclusive = { "tree, writers only", true, open_tree, take_exclusive, give_back, close_tree };
