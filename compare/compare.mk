# Comparison with the Rust crate and the benchmark. The crate's sources are found at CAFEBABE_SRC
# (compare/build says where it looks and what to set if they are not there).
.PHONY: compare compare-long compare-model planted planted-code fixed-list bench
COMPARE_SEED ?= 1
COMPARE_SHARE ?= 8
COMPARE_MUTANTS ?= 150000
TIME ?= 600
COMPARE_PACKS = build/compare/own.pack,build/compare/jdk-$(COMPARE_SHARE)-1.pack

compare: build/libluohtemik.a ## the proved library against the Rust crate and a model of the rules: seeded, under three minutes
	@COMPARE_SHARE=$(COMPARE_SHARE) compare/run $(COMPARE_SEED) $(COMPARE_MUTANTS)

compare-long: build/libluohtemik.a ## the same for TIME seconds, on all classes of the JDK; JARS may name more
	@compare/build
	@compare/packs 1 1
	@build/compare/compare long seed=$(COMPARE_SEED) time=$(TIME) packs=build/compare/own.pack,build/compare/jdk-1-1.pack$(if $(JARS),$(comma)build/compare/jars.pack)

compare-model: ## the nets alone: the model stands where the proved library would
	@compare/build model
	@compare/packs $(COMPARE_SHARE) 1
	@LD_LIBRARY_PATH=build/compare/standin build/compare/compare-model compare seed=$(COMPARE_SEED) mutants=$(COMPARE_MUTANTS) packs=$(COMPARE_PACKS)

planted: ## planted errors: the nets catch each one
	@compare/planted

planted-code: ## errors in a copy of the proved code, replayed on the fixed list without a proof
	@compare/planted-code

fixed-list: ## make the fixed list of cases and put it behind the vectors of crates/*_vectors
	@compare/fixed

bench: build/libluohtemik.a ## speed of the proved library and of the crate on the same files
ifeq ($(LINK),)
	@compare/build
	@compare/packs 1 1
	@build/compare/compare bench packs=build/compare/jdk-1-1.pack
	@build/compare/compare worst
else
	@echo "bench: left out: the library runs under an emulator here, and a time measured so says nothing of it"
endif

comma := ,
