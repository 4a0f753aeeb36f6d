// The rows of typed ports: ../driver.hpp says how it is called.
#include "../driver.hpp"

#define ROWS_OF(ROW, OF) \
    ROW(OF##_exchange) ROW(OF##_exchange_lanes) ROW(OF##_request_loan) \
    ROW(OF##_request_loan_waiting) ROW(OF##_response_loan) ROW(OF##_response_loan_lanes) \
    ROW(OF##_exchange_servers) ROW(OF##_request_loan_servers) \
    ROW(OF##_response_loan_after) ROW(OF##_response_loan_after_lanes)
#define ROWS(ROW) ROWS_OF(ROW, iox) ROWS_OF(ROW, plan) ROWS_OF(ROW, same)

extern "C" {
#define DECLARED(NAME) uint64_t NAME(uint64_t size, uint64_t rounds);
ROWS(DECLARED)
}

int main(int count, char **words) {
#define LISTED(NAME) {#NAME, nullptr, NAME},
    const Row rows[] = {ROWS(LISTED)};
    return drive(rows, count, words);
}
