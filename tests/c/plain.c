/* Sends a file over UDP, or receives one, as plainly as one would write it: what stations are
 * compared with by speed.py. It is linked into nothing that is proved or shipped.
 *
 *   plain receive PORT FILE
 *   plain send PORT FILE COUNT SIZE WINDOW
 *
 * The sender spreads the file over COUNT datagrams of SIZE octets. Each has a header of eight
 * octets: its number, from 1, and how many octets of the file it has; the rest fills it up. Three
 * datagrams of one octet end it.
 *
 * With WINDOW 0 it sends as fast as it can, and what the receiver's socket has no room for is lost.
 * Stations lose nothing, so where data are lost so, the fair form is that with a window: of each 8
 * datagrams the receiver acknowledges the last one, in eight octets, and the sender waits while
 * WINDOW of them are not acknowledged. WINDOW is as many as fit into a socket. A file that isn't
 * whole then is a failure.
 *
 * Each prints how many datagrams it sent or took, and how many seconds it had a processor. */
#include <arpa/inet.h>
#include <stdint.h>
#include <stdio.h>
#include <stdlib.h>
#include <string.h>
#include <sys/resource.h>
#include <sys/socket.h>
#include <sys/stat.h>
#include <sys/time.h>
#include <unistd.h>

enum { ANSWERED = 8, MOST = 65536, ENDS = 3 };

static void need(int holds, const char *what)
{
    if (holds)
        return;
    perror(what);
    exit(1);
}

/* A socket with room for 4 MiB, or what the system gives, that waits 5 s at the most. */
static int opened(void)
{
    int room = 4 << 20, it = socket(AF_INET, SOCK_DGRAM, 0);
    struct timeval patience = {5, 0};
    need(it >= 0, "socket");
    setsockopt(it, SOL_SOCKET, SO_RCVBUF, &room, sizeof room);
    setsockopt(it, SOL_SOCKET, SO_SNDBUF, &room, sizeof room);
    setsockopt(it, SOL_SOCKET, SO_RCVTIMEO, &patience, sizeof patience);
    return it;
}

static struct sockaddr_in address(const char *port)
{
    struct sockaddr_in it = {.sin_family = AF_INET, .sin_port = htons((uint16_t)atoi(port))};
    it.sin_addr.s_addr = htonl(INADDR_LOOPBACK);
    return it;
}

static void tell(uint32_t count)
{
    struct rusage used;
    getrusage(RUSAGE_SELF, &used);
    double seconds = (double)(used.ru_utime.tv_sec + used.ru_stime.tv_sec)
        + 1e-6 * (double)(used.ru_utime.tv_usec + used.ru_stime.tv_usec);
    printf("%u %.3f\n", count, seconds);
}

/* What stands in front of the octets of the file. */
struct header {
    uint32_t number, len;
};

static void receive(const char *port, const char *path)
{
    static char datagram[MOST];
    struct sockaddr_in own = address(port), from;
    struct header header;
    int it = opened();
    uint32_t count = 0;
    FILE *file = fopen(path, "wb");
    need(file != NULL, path);
    need(bind(it, (struct sockaddr *)&own, sizeof own) == 0, "bind");
    for (;;) {
        socklen_t len = sizeof from;
        ssize_t got = recvfrom(it, datagram, MOST, 0, (struct sockaddr *)&from, &len);
        if (got < (ssize_t)sizeof header)
            break;
        count += 1;
        memcpy(&header, datagram, sizeof header);
        need(header.len <= (size_t)got - sizeof header, "len");
        need(fwrite(datagram + sizeof header, 1, header.len, file) == header.len, path);
        if (header.number % ANSWERED == 0)
            sendto(it, datagram, sizeof header, 0, (struct sockaddr *)&from, len);
    }
    need(fclose(file) == 0, path);
    tell(count);
}

static void send_all(const char *port, const char *path, char **numbers)
{
    static char datagram[MOST];
    uint32_t count = (uint32_t)atoi(numbers[0]), window = (uint32_t)atoi(numbers[2]);
    size_t size = (size_t)atoi(numbers[1]), part;
    struct sockaddr_in peer = address(port);
    struct header header, answered = {0, 0};
    struct stat whole;
    int it = opened();
    FILE *file = fopen(path, "rb");
    need(file != NULL && fstat(fileno(file), &whole) == 0, path);
    part = ((size_t)whole.st_size + count - 1) / count;
    need(part <= size - sizeof header && size <= MOST, "SIZE");
    need(connect(it, (struct sockaddr *)&peer, sizeof peer) == 0, "connect");
    for (header.number = 1; header.number <= count; header.number++) {
        header.len = (uint32_t)fread(datagram + sizeof header, 1, part, file);
        memcpy(datagram, &header, sizeof header);
        need(send(it, datagram, size, 0) == (ssize_t)size, "send");
        while (window > 0 && header.number >= answered.number + window)
            need(recv(it, &answered, sizeof answered, 0) == sizeof answered, "recv");
    }
    for (int ends = 0; ends < ENDS; ends++)
        send(it, datagram, 1, 0);
    tell(count);
}

int main(int count, char **words)
{
    if (count == 4 && strcmp(words[1], "receive") == 0)
        receive(words[2], words[3]);
    else if (count == 7 && strcmp(words[1], "send") == 0)
        send_all(words[2], words[3], words + 4);
    else
        return 2;
    return 0;
}
