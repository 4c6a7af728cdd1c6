// A relay that passes bytes on: from each connection on FROM_PORT of loopback to one of its own to TO_PORT, and back, a
// thread each way. What a gateway's fills are measured beside.
//
//     relay FROM_PORT TO_PORT
#include <arpa/inet.h>
#include <netinet/tcp.h>
#include <sys/socket.h>
#include <unistd.h>

#include <cstdio>
#include <cstdlib>
#include <thread>

static sockaddr_in at(int port) {
    sockaddr_in it{};
    it.sin_family = AF_INET;
    it.sin_port = htons(port);
    it.sin_addr.s_addr = htonl(INADDR_LOOPBACK);
    return it;
}

static void pass(int from, int to) {
    char piece[4096];
    for (ssize_t n; (n = read(from, piece, sizeof piece)) > 0;)
        for (ssize_t sent = 0, m; sent < n; sent += m)
            if ((m = write(to, piece + sent, n - sent)) <= 0) return;
    shutdown(to, SHUT_WR);
}

int main(int argc, char **argv) {
    if (argc != 3) return 2;
    int listener = socket(AF_INET, SOCK_STREAM, 0), one = 1;
    setsockopt(listener, SOL_SOCKET, SO_REUSEADDR, &one, sizeof one);
    sockaddr_in own = at(std::atoi(argv[1])), other = at(std::atoi(argv[2]));
    if (bind(listener, (sockaddr *)&own, sizeof own) || listen(listener, 4)) return std::perror("listen"), 2;
    for (;;) {
        int in = accept(listener, nullptr, nullptr), out = socket(AF_INET, SOCK_STREAM, 0);
        if (in < 0 || connect(out, (sockaddr *)&other, sizeof other)) return std::perror("connect"), 2;
        setsockopt(in, IPPROTO_TCP, TCP_NODELAY, &one, sizeof one);
        setsockopt(out, IPPROTO_TCP, TCP_NODELAY, &one, sizeof one);
        std::thread(pass, in, out).detach();
        std::thread(pass, out, in).detach();
    }
}
