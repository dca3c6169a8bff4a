/* Kernel calls. The number is in $2 and the arguments are in $4 to $8; the answer's code is in $2 and its value in $3.
   docs/KERNEL.md says what each does. */
#ifndef AEGIS_H
#define AEGIS_H

enum aegis_number {
    AEGIS_YIELD = 0,
    AEGIS_PUT = 1,
    AEGIS_EXIT = 2,
    AEGIS_ALLOC = 3,
    AEGIS_FREE = 4,
    AEGIS_RECAP = 5,
    AEGIS_BIND = 6,
    AEGIS_UNBIND = 7,
    AEGIS_CONTEXT = 8,
    AEGIS_ACCEPT = 9,
    AEGIS_TRANSFER = 10,
    AEGIS_TAKE = 11,
    AEGIS_DROP = 12,
    AEGIS_QUERY = 13,
    AEGIS_CLAIM = 14,
    AEGIS_UNCLAIM = 15,
    AEGIS_HANDLER = 16,
    AEGIS_LINE = 17,
    AEGIS_BACKUP = 18,
    AEGIS_SEND = 19,
    AEGIS_SELF = 20,
    AEGIS_CLOCK = 21
};

enum aegis_code {
    AEGIS_OK = 0,
    AEGIS_NO_PAGE = 1,
    AEGIS_TAKEN = 2,
    AEGIS_NONE_FREE = 3,
    AEGIS_NOT_OWNER = 4,
    AEGIS_NO_RIGHT = 5,
    AEGIS_BAD_VPN = 6,
    AEGIS_GUARANTEED = 7,
    AEGIS_NO_ENV = 8,
    AEGIS_NOT_ACCEPTED = 9,
    AEGIS_NO_SLICE = 10,
    AEGIS_SLOT_TAKEN = 11,
    AEGIS_NOT_HOLDER = 12,
    AEGIS_BAD_FILTER = 13,
    AEGIS_OVERLAP = 14,
    AEGIS_NO_FILTER = 15,
    AEGIS_BAD_HANDLER = 16,
    AEGIS_LINE_TAKEN = 17,
    AEGIS_CONSOLE_FULL = 18,
    AEGIS_FULL = 19,
    AEGIS_BAD_CALL = 20,
    AEGIS_BAD_POINTER = 21,
    AEGIS_AGAIN = 22 /* of alloc: another environment was asked for a page, so call again later */
};

/* What an environment may name a handler of its own for. */
enum aegis_context { AEGIS_EXCEPTIONS, AEGIS_STARTS, AEGIS_ENDS, AEGIS_ASYNCHRONOUS_CALLS, AEGIS_SYNCHRONOUS_CALLS };

/* What may be asked of a query; of some there are more than one, which are numbered. */
enum aegis_question {
    AEGIS_FREE_PAGES,
    AEGIS_PAGES,
    AEGIS_ENVS,
    AEGIS_SLOTS,
    AEGIS_QUANTUM,
    AEGIS_OWNER,
    AEGIS_HOLDER,
    AEGIS_EXCESS,
    AEGIS_DEAD
};

/* A transfer hands on the rest of the slice, or the slot too. */
enum aegis_kind { AEGIS_ASYNCHRONOUS, AEGIS_SYNCHRONOUS };

#define AEGIS_ANY 0xffffffffu /* whoever is next, or the lowest free page */
#define AEGIS_PAGE 4096u

struct aegis_answer {
    unsigned code;
    unsigned value;
};

static inline struct aegis_answer aegis_call(enum aegis_number number, unsigned a, unsigned b)
{
    register unsigned code __asm__("$2") = number;
    register unsigned value __asm__("$3");
    register unsigned first __asm__("$4") = a;
    register unsigned second __asm__("$5") = b;
    __asm__ volatile("syscall" : "+r"(code), "=r"(value) : "r"(first), "r"(second) : "memory");
    return (struct aegis_answer){code, value};
}

/* A call with five arguments, of which the last two pairs may be words of 64 bits, low half first. */
static inline struct aegis_answer aegis_call5(enum aegis_number number, unsigned a, unsigned b, unsigned c, unsigned d, unsigned e)
{
    register unsigned code __asm__("$2") = number;
    register unsigned value __asm__("$3");
    register unsigned first __asm__("$4") = a;
    register unsigned second __asm__("$5") = b;
    register unsigned third __asm__("$6") = c;
    register unsigned fourth __asm__("$7") = d;
    register unsigned fifth __asm__("$8") = e;
    __asm__ volatile("syscall" : "+r"(code), "=r"(value) : "r"(first), "r"(second), "r"(third), "r"(fourth), "r"(fifth) : "memory");
    return (struct aegis_answer){code, value};
}

/* Allocates a page, or the lowest free one by AEGIS_ANY: the value is its number. Who presents the read word may bind it to
   read it, and who presents the write word to store to it; 0 gives nobody a right. */
static inline struct aegis_answer aegis_alloc(unsigned page, unsigned long long read, unsigned long long write)
{
    return aegis_call5(AEGIS_ALLOC, page, (unsigned)read, (unsigned)(read >> 32), (unsigned)write, (unsigned)(write >> 32));
}

/* Frees a page of one's own. */
static inline unsigned aegis_free(unsigned page)
{
    return aegis_call(AEGIS_FREE, page, 0).code;
}

/* Gives a page of one's own other words; all bindings of others go. */
static inline unsigned aegis_recap(unsigned page, unsigned long long read, unsigned long long write)
{
    return aegis_call5(AEGIS_RECAP, page, (unsigned)read, (unsigned)(read >> 32), (unsigned)write, (unsigned)(write >> 32)).code;
}

/* Sees a page at an address, which is a multiple of AEGIS_PAGE, to read it or to store to it too. The word is that which its
   owner gave it; for a page of one's own it isn't read. */
static inline unsigned aegis_bind(void *address, unsigned page, int stores, unsigned long long word)
{
    unsigned vpn = (unsigned)address / AEGIS_PAGE;
    return aegis_call5(AEGIS_BIND, vpn, page, stores, (unsigned)word, (unsigned)(word >> 32)).code;
}

/* Sees no page there any more: the value is 1 if it did. */
static inline struct aegis_answer aegis_unbind(void *address)
{
    return aegis_call(AEGIS_UNBIND, (unsigned)address / AEGIS_PAGE, 0);
}

/* Gives up the rest of the slice. */
static inline void aegis_yield(void)
{
    aegis_call(AEGIS_YIELD, AEGIS_ANY, 0);
}

/* Puts bytes on the console, all of which lie in one page. */
static inline unsigned aegis_put(const void *bytes, unsigned length)
{
    return aegis_call(AEGIS_PUT, (unsigned)bytes, length).code;
}

/* Ends the environment. */
static inline void aegis_exit(unsigned code)
{
    aegis_call(AEGIS_EXIT, code, 0);
    __builtin_unreachable();
}

/* The environment's own number. */
static inline unsigned aegis_self(void)
{
    return aegis_call(AEGIS_SELF, 0, 0).value;
}

/* Has a context handled at an address, and by 0 not any more. No stack is kept for a handler, and no register but those that
   the kernel says, so it is assembly. */
static inline unsigned aegis_context(enum aegis_context context, void (*handler)(void))
{
    return aegis_call(AEGIS_CONTEXT, context, (unsigned)handler).code;
}

/* Accepts the yields and transfers of these environments alone, a bit for each. */
static inline void aegis_accept(unsigned mask)
{
    aegis_call(AEGIS_ACCEPT, mask, 0);
}

/* Gives the rest of the slice to another environment. */
static inline unsigned aegis_give(unsigned target)
{
    return aegis_call(AEGIS_YIELD, target, 0).code;
}

/* Takes an empty slot, and drops one that the environment holds. */
static inline unsigned aegis_take(unsigned slot)
{
    return aegis_call(AEGIS_TAKE, slot, 0).code;
}

static inline unsigned aegis_drop(unsigned slot)
{
    return aegis_call(AEGIS_DROP, slot, 0).code;
}

static inline struct aegis_answer aegis_query(enum aegis_question what, unsigned which)
{
    return aegis_call(AEGIS_QUERY, what, which);
}

/* What a packet has in a field: its bits under the mask are the value. The field is one, two or four bytes from the offset
   on, the highest byte first. */
struct aegis_atom {
    unsigned short offset, width;
    unsigned mask, value;
};

/* The page into which packets go has two buffers, which take them by turns. A buffer is free again once its length is 0. */
struct aegis_buffer {
    unsigned length;
    unsigned char bytes[2044];
};

/* Claims the packets that have all that these 1 to 16 atoms say, which lie in one page: they go into the page, which is one's
   own. The value is the number of the claim; where another environment's claim is in the way, it is that one's. */
static inline struct aegis_answer aegis_claim(const struct aegis_atom *atoms, unsigned count, unsigned page)
{
    return aegis_call5(AEGIS_CLAIM, (unsigned)atoms, count, page, 0, 0);
}

/* Withdraws a claim of one's own. */
static inline unsigned aegis_unclaim(unsigned claim)
{
    return aegis_call(AEGIS_UNCLAIM, claim, 0).code;
}

/* Has the kernel run these words, at most 64, over each packet of a claim of one's own, in place of what it ran before; none by 0
   words. They are instructions, which lie in one page and are copied: docs/KERNEL.md, "Handlers of packets", says which, and what
   they find. If one of them is bad, the code is AEGIS_BAD_HANDLER and the value its place. */
static inline struct aegis_answer aegis_handler(unsigned claim, const unsigned *words, unsigned count)
{
    return aegis_call5(AEGIS_HANDLER, claim, (unsigned)words, count, 0, 0);
}

/* How many packets came that the environment claims, and how many of them were lost since the buffer wasn't free. */
#define AEGIS_PACKETS (*(volatile unsigned *)0x1140)
#define AEGIS_LOST (*(volatile unsigned *)0x1144)

/* Takes an interrupt line, 0 to 7, and drops one that the environment has. */
static inline unsigned aegis_take_line(unsigned line)
{
    return aegis_call(AEGIS_LINE, line, 1).code;
}

static inline unsigned aegis_drop_line(unsigned line)
{
    return aegis_call(AEGIS_LINE, line, 0).code;
}

/* A bit for each line on which a signal came; the program clears them. */
#define AEGIS_LINES (*(volatile unsigned *)0x1148)

/* Sends a packet of 14 to 1,514 bytes, all of which lie in one page. */
static inline unsigned aegis_send(const void *bytes, unsigned length)
{
    return aegis_call(AEGIS_SEND, (unsigned)bytes, length).code;
}

/* How many pages were outstanding when the environment was last asked for some, and the tick in which those are taken that it
   hasn't freed. The kernel writes both when it asks. */
#define AEGIS_OUTSTANDING (*(volatile unsigned *)0x114c)
#define AEGIS_DEADLINE (*(volatile unsigned *)0x1150)

/* Loads a page of one's own as a backup. It gets a copy of a page that is taken, and isn't taken itself until then. */
static inline unsigned aegis_backup(unsigned page)
{
    return aegis_call(AEGIS_BACKUP, page, 0).code;
}

/* How many pages were taken, and the records of the first 64: which page, and the backup that has a copy of it, or AEGIS_ANY. A
   program that stores 0 to the count has the next record in the first place again. */
struct aegis_taking {
    unsigned page, backup;
};
#define AEGIS_TAKEN_PAGES (*(volatile unsigned *)0x117c)
#define AEGIS_TAKINGS ((volatile struct aegis_taking *)0x1180)

/* Has another environment go on at its entry, where it finds the word in $6. It gets all other registers, too. */
static inline unsigned aegis_transfer(unsigned target, enum aegis_kind kind, unsigned word)
{
    register unsigned code __asm__("$2") = AEGIS_TRANSFER;
    register unsigned value __asm__("$3");
    register unsigned first __asm__("$4") = target;
    register unsigned second __asm__("$5") = kind;
    register unsigned third __asm__("$6") = word;
    __asm__ volatile("syscall" : "+r"(code), "=r"(value) : "r"(first), "r"(second), "r"(third) : "memory");
    return code;
}

/* calls.c: a client calls a server, which is another environment, and waits for its answer. As long as the server isn't open it
   yields, and tries again. It waits as long as the server lives. The code is 0 with an answer; 8 if there is no server any more; and
   this one if the server died after it was called. */
#define AEGIS_NO_ANSWER 0xffffffffu
struct aegis_answer aegis_ask(unsigned server, unsigned argument);

/* The other side: answers the calls of these clients, a bit for each, for ever. It wants one slot of its own. */
__attribute__((noreturn)) void aegis_serve(unsigned clients, unsigned (*answer)(unsigned client, unsigned argument));

/* words.c: the same with eight words each way, in registers. The words of the call are replaced by those of the answer. The code
   is that of aegis_ask. A client may ask by both functions, one after the other. */
#define AEGIS_WORDS 8
unsigned aegis_ask_words(unsigned server, unsigned words[AEGIS_WORDS]);

/* The other side: the words are the call's, and what stands there when `answer` returns is the answer. */
__attribute__((noreturn)) void aegis_serve_words(unsigned clients, void (*answer)(unsigned client, unsigned words[AEGIS_WORDS]));

/* Numbers of packets, whose highest byte stands first, and those of the machine, each made of the other. */
static inline unsigned short htons(unsigned short number)
{
    return (unsigned short)(number << 8 | number >> 8);
}

static inline unsigned htonl(unsigned number)
{
    return number << 24 | (number & 0xff00) << 8 | (number >> 8 & 0xff00) | number >> 24;
}

static inline unsigned short ntohs(unsigned short number)
{
    return htons(number);
}

static inline unsigned ntohl(unsigned number)
{
    return htonl(number);
}

/* How many ticks were made before this one. */
static inline unsigned aegis_clock(void)
{
    return aegis_call(AEGIS_CLOCK, 0, 0).value;
}

/* Puts a text on the console, a page's part of it at a time. */
static inline void print(const char *text)
{
    while (*text) {
        unsigned left = AEGIS_PAGE - (unsigned)text % AEGIS_PAGE, length = 0;
        while (length < left && text[length])
            length++;
        aegis_put(text, length);
        text += length;
    }
}

/* Puts a number in decimal on the console. */
static inline void print_number(unsigned number)
{
    char digits[11], *first = digits + 10;
    *first = 0;
    do {
        *--first = '0' + number % 10;
        number /= 10;
    } while (number);
    print(first);
}

#endif
