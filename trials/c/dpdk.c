/* Times the interpreter of DPDK, and its load of a program, on an image, as `bench` times the run and the verifier:
 *
 *     cc -O2 $(pkg-config --cflags libdpdk) dpdk.c -o dpdk -lrte_bpf -lrte_eal
 *     ./dpdk IMAGE TURNS [INPUT]
 *
 * It prints the answer, and the least nanoseconds of a load and of a run. The program sees the input window, and the output window
 * behind it, by its first register; instructions in front set the other three that it is entered with, where it reads them.
 */
#include <rte_bpf.h>
#include <rte_log.h>
#include <stdio.h>
#include <stdlib.h>
#include <string.h>
#include <time.h>

#define HEAD 16
#define FRONT 4
#define MOST_SLOTS 4096
#define BATCH 65536 /* slots loaded, or run, between two looks at the clock */

static struct ebpf_insn slots[FRONT + MOST_SLOTS];
static unsigned char window[2 * 65536];

static double now(void)
{
    struct timespec at;
    clock_gettime(CLOCK_MONOTONIC, &at);
    return at.tv_sec * 1e9 + at.tv_nsec;
}

static size_t read_file(const char *name, void *to, size_t most)
{
    FILE *file = fopen(name, "rb");
    if (!file) { perror(name); exit(2); }
    size_t read = fread(to, 1, most, file);
    fclose(file);
    return read;
}

static struct rte_bpf *load(const struct ebpf_insn *code, size_t count, size_t size)
{
    struct rte_bpf_prm given = { .ins = code, .nb_ins = count, .prog_arg = { .type = RTE_BPF_ARG_PTR, .size = size } };
    return rte_bpf_load(&given);
}

int main(int argc, char **argv)
{
    static unsigned char image[HEAD + 8 * MOST_SLOTS];
    unsigned in_len, out_len, front = 0;
    if (argc < 3) { fprintf(stderr, "dpdk IMAGE TURNS [INPUT]\n"); return 2; }
    size_t count = (read_file(argv[1], image, sizeof image) - HEAD) / 8, used = 0;
    memcpy(&in_len, image + 8, 4);
    memcpy(&out_len, image + 12, 4);
    memcpy(slots + FRONT, image + HEAD, 8 * count);
    if (argc > 3) used = read_file(argv[3], window, in_len);

    const struct ebpf_insn entry[FRONT] = {
        { .code = BPF_ALU | EBPF_ALU64 | EBPF_MOV | BPF_X, .dst_reg = 3, .src_reg = 1 },
        { .code = BPF_ALU | EBPF_ALU64 | BPF_ADD, .dst_reg = 3, .imm = in_len },
        { .code = BPF_ALU | EBPF_ALU64 | EBPF_MOV, .dst_reg = 4, .imm = out_len },
        { .code = BPF_ALU | EBPF_ALU64 | EBPF_MOV, .dst_reg = 2, .imm = used },
    };
    memcpy(slots, entry, sizeof entry);

    /* As few of these as the program asks for: none, that of the used length, or all. */
    const unsigned fronts[] = { 0, 1, FRONT };
    struct rte_bpf *bpf = NULL;
    rte_log_set_global_level(RTE_LOG_EMERG);
    for (unsigned k = 0; k < 3 && !bpf; k++) {
        front = fronts[k];
        bpf = load(slots + FRONT - front, front + count, in_len + out_len);
    }
    if (!bpf) { printf("refused\n"); return 1; }
    const struct ebpf_insn *code = slots + FRONT - front;

    int loads = BATCH / 8 / count + 1, runs = BATCH / count + 1;
    double load_least = 1e18, run_least = 1e18;
    unsigned long answer = rte_bpf_exec(bpf, window);
    for (int turn = atoi(argv[2]); turn > 0; turn--) {
        double start = now();
        for (int k = 0; k < loads; k++) rte_bpf_destroy(load(code, front + count, in_len + out_len));
        double loaded = now();
        for (int k = 0; k < runs; k++) answer = rte_bpf_exec(bpf, window);
        double ran = now();
        if (loaded - start < load_least) load_least = loaded - start;
        if (ran - loaded < run_least) run_least = ran - loaded;
    }
    printf("answer %lu\nload %.1f ns\nrun %.1f ns\n", answer, load_least / loads, run_least / runs);
    return 0;
}
