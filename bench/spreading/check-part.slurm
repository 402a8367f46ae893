#!/bin/sh
#SBATCH --job-name=latsefur --ntasks=1 --cpus-per-task=1 --requeue --open-mode=append --output=parts/%a.said
# Answers the messages of parts/NUMBER, for the NUMBER that the array gives, in parts/NUMBER.answers. What isn't whole has another name.
part=$(printf 'parts/%04d' "$SLURM_ARRAY_TASK_ID")
partial=$part.$(hostname).$$
./check-signs signs/*.toml < "$part" > "$partial" && [ "$(wc -l < "$partial")" = "$(wc -l < "$part")" ] && mv "$partial" "$part.answers"
