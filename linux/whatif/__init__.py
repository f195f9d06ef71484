"""How much memory would the shrinker of transparent huge pages free now? The program is thpwhatif (docs/WHATIF.md).

    look         which processes are looked at, and a look: what it has read, and what was left out
    stored       stored looks, written, read back and checked
    library      libthp in this process; what decides what a split does with a huge page, and which pages can't be predicted
    predict.c    the prediction of pages; predictor: for the pages of looks, as rows, the sums at each threshold
    report       the predictions of a look, as tables and JSON; metrics: for Prometheus
    policies     recorded journals under other thresholds and scans (policies.c)
    verify       trials with the real shrinker; trial: their outcome, and a plain reading of the kernel; known: known pages
    options      the words of the command line; program: the commands, and the files that they write
"""
