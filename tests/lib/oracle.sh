# Sourced, from the top of the repository, by the tests that go by the second program.
#   oracle_ready    build it
#   $oracle         the second program
#   $seed           what its cases by chance are made from; SEED=... repeats a run

# shellcheck disable=SC2034
oracle=oracle/target/release/oracle
# shellcheck disable=SC2034
seed=${SEED:-$(od -An -N4 -tu4 /dev/urandom | tr -d ' ')}

oracle_ready() {
    (cd oracle && CARGO_TARGET_DIR=target cargo build --release --offline --quiet)
}
