/* SPDX-License-Identifier: MIT OR Apache-2.0 */
/* Hands a filter to the kernel: a packet socket that receives only what the expression accepts (Linux; it needs CAP_NET_RAW). Without that
 * right a datagram socket takes the program instead, which shows that the kernel accepts it.
 *
 *     cc -o attach attach.c -lbpftap
 *     ./attach 'tcp port 80'
 */
#include <linux/filter.h>
#define BPFTAP_INSN struct sock_filter
#include <arpa/inet.h>
#include <bpftap.h>
#include <linux/if_ether.h>
#include <stdio.h>
#include <string.h>
#include <sys/socket.h>

int main(int argc, char **argv) {
    const char *text = argc > 1 ? argv[1] : "tcp port 80";
    struct sock_filter insns[BPFTAP_MAX_INSNS];
    struct bpftap_result compiled = bpftap_compile(text, strlen(text), BPFTAP_MAX_SNAP, insns, BPFTAP_MAX_INSNS);
    if (compiled.fault) {
        char fault[64];
        bpftap_fault_text(compiled.fault, compiled.place, fault, sizeof fault);
        return fprintf(stderr, "attach: %s\n", fault), 1;
    }
    int at = socket(AF_PACKET, SOCK_RAW, htons(ETH_P_ALL));
    if (at < 0) at = socket(AF_INET, SOCK_DGRAM, 0);
    struct sock_fprog program = {(unsigned short)compiled.size, insns};
    if (at < 0 || setsockopt(at, SOL_SOCKET, SO_ATTACH_FILTER, &program, sizeof program)) return perror("attach"), 1;
    printf("the kernel took %zu instructions\n", compiled.size);
    return 0;
}
