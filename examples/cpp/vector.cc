// Vectors of samples, of any size, an empty one too.
#include <rice.h>
#include <cstdio>
#include <cstdlib>
#include <vector>

typedef std::vector<uint8_t> Bytes;

static void check(uint32_t status) {
    if (status == RICE_DONE) return;
    std::printf("%s\n", rice_status_text(status));
    std::exit(1);
}

static Bytes encode(const rice_setting &setting, const Bytes &samples) {
    Bytes code(rice_code_room(&setting, samples.size() / rice_sample_width(&setting)));
    rice_report report;
    check(rice_encode(&setting, samples.data(), samples.size(), code.data(), code.size(), &report));
    code.resize(report.written);
    return code;
}

static Bytes decode(const rice_setting &setting, const Bytes &code, size_t count) {
    Bytes samples(count * rice_sample_width(&setting));
    rice_report report;
    check(rice_decode(&setting, count, code.data(), code.size(), samples.data(), samples.size(), &report));
    return samples;
}

int main() {
    const rice_setting setting = rice_setting_for(8);
    for (size_t size = 0; size < 100; size++) {
        Bytes samples(size);
        for (size_t i = 0; i < size; i++) samples[i] = uint8_t(i * i / 7);
        const Bytes code = encode(setting, samples);
        if (code.empty() != samples.empty() || decode(setting, code, size) != samples) return 1;
    }
    std::printf("vectors of 0 to 99 samples come back\n");
    return 0;
}
