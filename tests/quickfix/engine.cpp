// What QuickFIX says of frames. `engine DICTIONARY` reads them from standard input, each as two numbers of four bytes (most significant
// first), the expected number and the length, and its bytes; it prints a line for each:
//   kept                 it isn't given to the engine: a data length in it would make the engine read outside of it
//   refused WHY          by the framing layer: not one message of the stream, fields, body length, checksum
//   dictionary WHY       by the dictionary
//   taken TYPES N CALLS  and a session that expects this number: the types of the messages that it sends, the number that it then
//                        expects, how often it calls the application; `taken` alone where the expected number isn't one of an engine's
// `engine DICTIONARY time PASSES` prints how long framing layer and dictionary take for a frame, the least of the passes; and where it is
// built with the proved library (-DFTD), how long ftd_frame_read takes, timed in turn with it, and their ratio.

#include <cstdint>
#include <cstdio>
#include <cstdlib>
#include <ctime>
#include <functional>
#include <iostream>
#include <iterator>
#include <string>
#include <vector>

#include <quickfix/Application.h>
#include <quickfix/DataDictionary.h>
#include <quickfix/DataDictionaryProvider.h>
#include <quickfix/Message.h>
#include <quickfix/MessageStore.h>
#include <quickfix/Parser.h>
#include <quickfix/Session.h>

#ifdef FTD
#include "ftd.h"
#endif

struct Frame {
    uint32_t expected;
    std::string bytes;
};

static std::vector<Frame> frames_of(std::istream& input) {
    std::string all((std::istreambuf_iterator<char>(input)), std::istreambuf_iterator<char>());
    std::vector<Frame> frames;
    size_t at = 0;
    auto number = [&] {
        uint32_t n = 0;
        for (int i = 0; i < 4; i++) n = n << 8 | static_cast<unsigned char>(all.at(at++));
        return n;
    };
    while (at < all.size()) {
        uint32_t expected = number();
        uint32_t length = number();
        if (all.size() - at < length) throw std::runtime_error("a frame is cut");
        frames.push_back({expected, all.substr(at, length)});
        at += length;
    }
    return frames;
}

// The engine takes a data field's bytes by its length without asking whether they are there. Such a frame is kept from it: one with a
// data tag anywhere, and a length tag of it anywhere, whose number is negative or passes the end. Tags may have zeros in front.
static bool endangers(const std::string& bytes) {
    static const int pairs[][2] = {{90, 91}, {93, 89}, {95, 96}, {354, 355}};
    std::vector<std::pair<int, size_t>> tags;
    for (size_t at = 0; at < bytes.size(); at++) {
        if (at > 0 && bytes[at - 1] != '\001') continue;
        size_t end = at;
        long tag = 0;
        while (end < bytes.size() && isdigit(static_cast<unsigned char>(bytes[end])) && tag < 100000)
            tag = tag * 10 + (bytes[end++] - '0');
        if (end < bytes.size() && bytes[end] == '=') tags.push_back({static_cast<int>(tag), end + 1});
    }
    for (auto& pair : pairs)
        for (auto& length : tags)
            if (length.first == pair[0]) {
                long n = atol(bytes.c_str() + length.second);
                for (auto& data : tags)
                    if (data.first == pair[1] &&
                        (n < 0 || n >= static_cast<long>(bytes.size()) - static_cast<long>(data.second)))
                        return true;
            }
    return false;
}

// Hears what a session says.
class Listener : public FIX::Application, public FIX::Responder {
public:
    std::string sent;
    int calls = 0;

    void onCreate(const FIX::SessionID&) override {}
    void onLogon(const FIX::SessionID&) override {}
    void onLogout(const FIX::SessionID&) override {}
    void toAdmin(FIX::Message&, const FIX::SessionID&) override {}
    void toApp(FIX::Message&, const FIX::SessionID&) throw(FIX::DoNotSend) override {}
    void fromAdmin(const FIX::Message&, const FIX::SessionID&)
        throw(FIX::FieldNotFound, FIX::IncorrectDataFormat, FIX::IncorrectTagValue, FIX::RejectLogon) override {
        calls++;
    }
    void fromApp(const FIX::Message&, const FIX::SessionID&)
        throw(FIX::FieldNotFound, FIX::IncorrectDataFormat, FIX::IncorrectTagValue, FIX::UnsupportedMessageType) override {
        calls++;
    }
    bool send(const std::string& message) override {
        size_t at = message.find("\00135=");
        sent += at == std::string::npos ? '?' : message[at + 4];
        return true;
    }
    void disconnect() override {}
};

// "8=FIX.4.2 9=.. 35=A .. 10=.." that starts a session.
static std::string logon() {
    FIX::Message message;
    message.getHeader().setField(FIX::BeginString("FIX.4.2"));
    message.getHeader().setField(FIX::MsgType("A"));
    message.getHeader().setField(FIX::SenderCompID("FUND"));
    message.getHeader().setField(FIX::TargetCompID("BROKER"));
    message.getHeader().setField(FIX::MsgSeqNum(1));
    message.getHeader().setField(FIX::SendingTime(FIX::UtcTimeStamp(), 0));
    message.setField(FIX::EncryptMethod(0));
    message.setField(FIX::HeartBtInt(30));
    return message.toString();
}

static std::string judged(const Frame& frame, const std::string& logon, const FIX::DataDictionaryProvider& provider) {
    Listener listener;
    FIX::MemoryStoreFactory stores;
    FIX::TimeRange always(FIX::UtcTimeOnly(0, 0, 0), FIX::UtcTimeOnly(0, 0, 0));
    FIX::Session session(listener, stores, FIX::SessionID("FIX.4.2", "BROKER", "FUND"), provider, always, 0, nullptr);
    session.setCheckCompId(false);
    session.setCheckLatency(false);
    session.setResponder(&listener);
    // A logon starts a session, anything else comes when it has started.
    if (frame.bytes.find("\00135=A\001") == std::string::npos) {
        session.next(logon, FIX::UtcTimeStamp());
        if (!session.isLoggedOn()) throw std::runtime_error("the session doesn't start");
    }
    session.setNextTargetMsgSeqNum(static_cast<int>(frame.expected));
    listener.sent.clear();
    listener.calls = 0;
    try {
        session.next(frame.bytes, FIX::UtcTimeStamp());
    } catch (std::exception&) {
        listener.sent += '!';
    }
    return (listener.sent.empty() ? "-" : listener.sent) + " " + std::to_string(session.getExpectedTargetNum()) + " " +
           std::to_string(listener.calls);
}

static std::string one_line(std::string text) {
    for (char& c : text)
        if (c < ' ' || c > '~') c = ' ';
    return text;
}

// Framing layer and dictionary: empty, or who refuses the frame and why.
static std::string refusal(const std::string& bytes, const FIX::DataDictionary& dictionary) {
    try {
        FIX::Parser parser;
        std::string message;
        parser.addToStream(bytes);
        if (!parser.readFixMessage(message) || message != bytes) return "refused not one message";
        FIX::Message read(message, dictionary, dictionary, true);
        try {
            dictionary.validate(read);
        } catch (std::exception& e) {
            return "dictionary " + one_line(e.what());
        }
    } catch (std::exception& e) {
        return "refused " + one_line(e.what());
    }
    return "";
}

struct Side {
    std::string name;
    std::function<size_t()> work;
    double least = 0;
    size_t taken = 0;
};

// Processor time of this thread, in seconds.
static double now() {
    timespec time;
    clock_gettime(CLOCK_THREAD_CPUTIME_ID, &time);
    return static_cast<double>(time.tv_sec) + static_cast<double>(time.tv_nsec) / 1e9;
}

// All sides in turn, so that each pass finds the machine alike.
static void timed(std::vector<Side>& sides, size_t frames, int passes) {
    for (int pass = 0; pass < passes; pass++)
        for (auto& side : sides) {
            double start = now();
            side.taken = side.work();
            double time = now() - start;
            if (pass == 0 || time < side.least) side.least = time;
        }
    for (auto& side : sides) {
        printf("%s: %zu of %zu frames taken, %.0f ns a frame", side.name.c_str(), side.taken, frames,
               side.least / static_cast<double>(frames) * 1e9);
        if (&side != &sides[0]) printf(", %.2f of %s", side.least / sides[0].least, sides[0].name.c_str());
        puts("");
    }
}

int main(int count, char** words) {
    if (count < 2) {
        std::cerr << "engine DICTIONARY [time PASSES] < FRAMES\n";
        return 2;
    }
    FIX::DataDictionary dictionary(words[1]);
    std::vector<Frame> frames = frames_of(std::cin);
    if (count == 4 && std::string(words[2]) == "time") {
        for (auto& frame : frames)
            if (endangers(frame.bytes)) throw std::runtime_error("a frame that the engine can't be given");
        // What is timed, by name: each is given all frames and says how many it took.
        std::vector<Side> sides;
        sides.push_back({"QuickFIX", [&] {
                             size_t taken = 0;
                             for (auto& frame : frames) taken += refusal(frame.bytes, dictionary).empty();
                             return taken;
                         }});
#ifdef FTD
        sides.push_back({"the library", [&] {
                             size_t taken = 0;
                             for (auto& frame : frames) {
                                 auto bytes = reinterpret_cast<const uint8_t*>(frame.bytes.data());
                                 auto read = ftd_frame_read(bytes, frame.bytes.size(), frame.expected);
                                 taken += read.refusal != FTD_NOT_ONE_FRAME && read.refusal != FTD_REQUIRED_TAG;
                             }
                             return taken;
                         }});
#endif
        timed(sides, frames.size(), atoi(words[3]));
        return 0;
    }
    FIX::DataDictionaryProvider provider;
    provider.addTransportDataDictionary(FIX::BeginString("FIX.4.2"),
                                        ptr::shared_ptr<FIX::DataDictionary>(new FIX::DataDictionary(dictionary)));
    std::string start = logon();
    for (auto& frame : frames) {
        if (endangers(frame.bytes)) {
            puts("kept");
            continue;
        }
        std::string why = refusal(frame.bytes, dictionary);
        if (!why.empty()) {
            puts(why.c_str());
            continue;
        }
        if (frame.expected > 1000000000)
            puts("taken");
        else
            printf("taken %s\n", judged(frame, start, provider).c_str());
    }
    return 0;
}
