// A FIX client and an OUCH market for a gateway, or for a relay that passes bytes on, and how long fills take.
//
//     load gateway|relay CLIENT_PORT MARKET_PORT FILE ORDERS OUTSTANDING [PAUSE]
//
// It listens on MARKET_PORT of loopback, connects to CLIENT_PORT, and has a process between the two, whose number is in
// FILE by then: start it behind this one. Of ORDERS orders so many are outstanding at once. The market answers an order
// by its Accepted and an Executed of the whole, in one write. Behind a fill it waits PAUSE microseconds before the next
// order, where that is said. Printed are orders a second, nanoseconds from an order to its fill (half of them take
// less, 99 in 100 do), and the processor time of that process an order. For a relay an order is 160 bytes and its
// answers are 126, unparsed.
#include <arpa/inet.h>
#include <netinet/tcp.h>
#include <sys/socket.h>
#include <unistd.h>

#include <algorithm>
#include <chrono>
#include <cstdint>
#include <cstdio>
#include <cstdlib>
#include <cstring>
#include <fstream>
#include <string>
#include <thread>
#include <vector>

using Clock = std::chrono::steady_clock;

[[noreturn]] static void stop(const char *why) {
    std::perror(why);
    std::exit(2);
}

static sockaddr_in at(int port) {
    sockaddr_in it{};
    it.sin_family = AF_INET;
    it.sin_port = htons(port);
    it.sin_addr.s_addr = htonl(INADDR_LOOPBACK);
    return it;
}

static void quick(int stream) {
    int one = 1;
    setsockopt(stream, IPPROTO_TCP, TCP_NODELAY, &one, sizeof one);
}

static void send_all(int stream, const std::string &bytes) {
    for (size_t sent = 0; sent < bytes.size();) {
        ssize_t n = write(stream, bytes.data() + sent, bytes.size() - sent);
        if (n <= 0) stop("write");
        sent += n;
    }
}

// Reads once, and adds what came.
static bool read_some(int stream, std::string &to) {
    char piece[65536];
    ssize_t n = read(stream, piece, sizeof piece);
    if (n > 0) to.append(piece, n);
    return n > 0;
}

static std::string number(uint64_t value, int bytes) {
    std::string text(bytes, '\0');
    for (int i = bytes - 1; i >= 0; i--, value >>= 8) text[i] = char(value & 255);
    return text;
}

static std::string packet(char kind, const std::string &payload) {
    return number(payload.size() + 1, 2) + kind + payload;
}

// Accepted and Executed of an Enter Order, with the market's next match number.
static std::string answers(const std::string &order, uint64_t match) {
    std::string token = order.substr(1, 14), when(8, '\0');
    std::string accepted = "A" + when + order.substr(1, 40) + number(match, 8) + order.substr(41, 6) + order[47] + "L" + " ";
    std::string executed = "E" + when + token + order.substr(16, 4) + order.substr(28, 4) + "A" + number(match, 8);
    return packet('S', accepted) + packet('S', executed);
}

static void serve_market(int stream) {
    std::string bytes;
    uint64_t match = 0;
    while (read_some(stream, bytes)) {
        std::string out;
        size_t from = 0;
        while (bytes.size() - from >= 2) {
            size_t size = 2 + (uint8_t(bytes[from]) << 8 | uint8_t(bytes[from + 1]));
            if (bytes.size() - from < size) break;
            char kind = bytes[from + 2];
            if (kind == 'L') out += packet('A', "SESSION001" + std::string(19, ' ') + "1");
            if (kind == 'U' && bytes[from + 3] == 'O') out += answers(bytes.substr(from + 3, 49), ++match);
            from += size;
        }
        bytes.erase(0, from);
        if (!out.empty()) send_all(stream, out);
    }
}

static void serve_relayed(int stream) {
    std::string bytes;
    while (read_some(stream, bytes)) {
        size_t orders = bytes.size() / 160;
        bytes.erase(0, orders * 160);
        if (orders) send_all(stream, std::string(orders * 126, 'x'));
    }
}

static std::string message(const std::string &kind, uint64_t seq, const std::string &rest) {
    std::string body = "35=" + kind + "\x01" "34=" + std::to_string(seq) + "\x01" "49=C1\x01" "56=GATE\x01"
        "52=20261126-13:30:00.000\x01" + rest;
    std::string text = "8=FIX.4.4\x01" "9=" + std::to_string(body.size()) + "\x01" + body;
    unsigned sum = 0;
    for (unsigned char it : text) sum += it;
    char end[16];
    std::snprintf(end, sizeof end, "10=%03u\x01", sum % 256);
    return text + end;
}

// Seconds of a processor that a process has used.
static double used(const char *named) {
    std::string pid;
    std::ifstream(named) >> pid;
    std::ifstream file("/proc/" + pid + "/stat");
    std::string text((std::istreambuf_iterator<char>(file)), {});
    unsigned long user = 0, system = 0;
    size_t at = text.rfind(')');
    if (at == std::string::npos ||
        std::sscanf(text.c_str() + at + 2, "%*c %*d %*d %*d %*d %*d %*u %*u %*u %*u %*u %lu %lu", &user, &system) != 2)
        return 0;
    return double(user + system) / sysconf(_SC_CLK_TCK);
}

int main(int argc, char **argv) {
    if (argc != 7 && argc != 8) return std::fprintf(stderr, "see the head of load.cpp\n"), 2;
    bool is_gateway = std::string(argv[1]) == "gateway";
    size_t orders = std::strtoul(argv[5], nullptr, 10), most = std::strtoul(argv[6], nullptr, 10);
    useconds_t pause = argc == 8 ? std::atoi(argv[7]) : 0;
    int listener = socket(AF_INET, SOCK_STREAM, 0), one = 1;
    setsockopt(listener, SOL_SOCKET, SO_REUSEADDR, &one, sizeof one);
    sockaddr_in market = at(std::atoi(argv[3])), client = at(std::atoi(argv[2]));
    if (bind(listener, (sockaddr *)&market, sizeof market) || listen(listener, 4)) stop("listen");
    int stream = -1;
    for (int i = 0; i < 500 && stream < 0; i++) {
        stream = socket(AF_INET, SOCK_STREAM, 0);
        if (connect(stream, (sockaddr *)&client, sizeof client)) {
            close(stream);
            stream = -1;
            usleep(10000);
        }
    }
    if (stream < 0) stop("connect");
    quick(stream);
    int port = accept(listener, nullptr, nullptr);
    if (port < 0) stop("accept");
    quick(port);
    std::thread serving([&] { is_gateway ? serve_market(port) : serve_relayed(port); });
    std::string bytes;
    uint64_t seq = 1;
    if (is_gateway) {
        send_all(stream, message("A", seq++, "98=0\x01" "108=30\x01"));
        while (bytes.find("\x01" "10=") == std::string::npos)
            if (!read_some(stream, bytes)) stop("logon");
        bytes.clear();
        usleep(300000);
    }
    std::vector<Clock::time_point> sent;
    std::vector<double> took;
    auto send_more = [&](size_t count) {
        std::string out;
        for (size_t i = 0; i < count && sent.size() < orders; i++) {
            std::string id = "A" + std::to_string(sent.size());
            sent.push_back(Clock::now());
            out += is_gateway ? message("D", seq++, "11=" + id + "\x01" "21=1\x01" "38=100\x01" "40=2\x01" "44=10\x01"
                                                    "54=1\x01" "55=INTC\x01" "59=0\x01" "60=20261126-13:30:00.000\x01")
                              : std::string(160, 'x');
        }
        if (!out.empty()) send_all(stream, out);
    };
    double before = used(argv[4]);
    Clock::time_point start = Clock::now();
    send_more(most);
    const std::string fill = "\x01" "150=F\x01";
    while (took.size() < orders) {
        if (!read_some(stream, bytes)) stop("the client's link");
        size_t filled = 0, from = 0;
        if (is_gateway) {
            for (size_t found; (found = bytes.find(fill, from)) != std::string::npos; from = found + fill.size()) filled++;
            bytes.erase(0, std::max(from, bytes.size() > fill.size() ? bytes.size() - fill.size() : 0));
        } else {
            filled = bytes.size() / 126;
            bytes.erase(0, filled * 126);
        }
        Clock::time_point now = Clock::now();
        for (size_t i = 0; i < filled; i++)
            took.push_back(std::chrono::duration<double, std::nano>(now - sent[took.size()]).count());
        if (pause && filled) usleep(pause);
        send_more(filled);
    }
    double seconds = std::chrono::duration<double>(Clock::now() - start).count(), cpu = used(argv[4]) - before;
    std::sort(took.begin(), took.end());
    std::printf("%s: %zu orders, %zu outstanding: %.0f a second; fill p50 %.1f us, p99 %.1f us; processor %.1f us an order\n",
                argv[1], orders, most, orders / seconds, took[orders / 2] / 1e3, took[orders * 99 / 100] / 1e3,
                cpu * 1e6 / orders);
    if (is_gateway) {
        send_all(stream, message("5", seq++, ""));
        while (read_some(stream, bytes)) {}
    }
    shutdown(stream, SHUT_RDWR);
    if (is_gateway) serving.join();
    std::exit(0);
}
