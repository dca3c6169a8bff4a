/* A program that knows nothing of pages, threads and packets: it counts words in a tree, and prints them in order. */
#include <stddef.h>

void *malloc(size_t size);
int printf(const char *format, ...);
int strcmp(const char *left, const char *right);

struct node {
    const char *word;
    struct node *before, *behind;
    unsigned count;
    char notes[1000]; /* so that a tree of few words has many pages */
};

static const char *const words[] = {
    "lend", "me", "your", "ears", "i", "come", "to", "bury", "caesar", "not", "to", "praise", "him", "the", "evil", "that", "men", "do",
    "lives", "after", "them", "the", "good", "is", "oft", "interred", "with", "their", "bones", "so", "let", "it", "be", "with", "caesar",
};

static struct node *entered(struct node *node, const char *word)
{
    if (!node) {
        node = malloc(sizeof *node);
        *node = (struct node){.word = word, .count = 1};
    } else if (!strcmp(word, node->word))
        node->count++;
    else if (strcmp(word, node->word) < 0)
        node->before = entered(node->before, word);
    else
        node->behind = entered(node->behind, word);
    return node;
}

static void show(const struct node *node)
{
    if (!node)
        return;
    show(node->before);
    printf("%s %u\n", node->word, node->count);
    show(node->behind);
}

int main(void)
{
    struct node *root = NULL;
    for (size_t at = 0; at < sizeof words / sizeof *words; at++)
        root = entered(root, words[at]);
    show(root);
    return 0;
}
