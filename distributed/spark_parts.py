#!/usr/bin/env python3
"""Answers a statement over all parts with Apache Spark, and prints the merged answer. Not tested: there is no Spark in the
full check.

    spark-submit distributed/spark_parts.py DIR

`tq split` made the folder DIR. All executors must see it under the same path and have `tq`. If a part fails, its task fails.
Then Spark runs the task again, and if it keeps failing, the job fails.
"""

import os
import subprocess
import sys

from pyspark import SparkContext

ASK = "while read -r part; do xargs -0 tq ask -o \"$part/answer.csv\" < \"$part/args\" || exit 1; done"


def main():
    folder = os.path.realpath(sys.argv[1])
    parts = [os.path.join(folder, name) for name in os.listdir(folder) if name.isdigit()]
    context = SparkContext(appName="tq")
    context.parallelize(parts, len(parts)).pipe(["sh", "-c", ASK], checkCode=True).collect()
    return subprocess.run(["tq", "merge", folder]).returncode


if __name__ == "__main__":
    sys.exit(main())
