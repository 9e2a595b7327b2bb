"""Loops in Lua that are measured beside runs of this project's programs, and how both are timed."""
import subprocess

LUA_COUNTING = """
local function work(turns)
  local i, sum = 0, 0
  while i < turns do sum = (sum + i) & 0xffffffff; i = i + 1 end
  return sum
end
"""

LUA_SIEVE = """
local cells = {}
local function work(size, turns)
  local count, turn = 0, 0
  while turn < turns do
    local i = 0
    while i < size do cells[i] = 0; i = i + 1 end
    i = 2
    while i < size do
      if cells[i] == 0 then
        count = count + 1
        local j = i + i
        while j < size do cells[j] = 1; j = j + i end
      end
      i = i + 1
    end
    turn = turn + 1
  end
  return count
end
"""

LUA_RECURSION = """
local function fib(n) if n < 2 then return n end return fib(n - 1) + fib(n - 2) end
local function work(n) return fib(n) end
"""


def run(path, *command):
    done = subprocess.run([*command, path, str(2**63)], stdout=subprocess.PIPE, stderr=subprocess.PIPE, check=True)
    return int(done.stderr.split()[1]) / 1e6, done.stdout.decode().strip()


def told(command, text):
    done = subprocess.run(command, input=text.encode(), stdout=subprocess.PIPE, check=True)
    seconds, result = done.stdout.decode().strip().split("\t")
    return float(seconds), result


def lua(text, words):
    call_ = ", ".join(map(str, words))
    tail = f"local start = os.clock()\nlocal result = work({call_})\nprint(os.clock() - start, 'ended ' .. result)\n"
    return told(["lua5.4", "-"], text + tail)
