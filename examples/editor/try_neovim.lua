-- Opens the document of the buffer and a text of WGSL, breaks each, mends it, and ends with status 1 where something else is shown than
-- is due.
local function fails(why)
  io.stderr:write(why .. "\n")
  vim.cmd("cquit 1")
end

local function shown()
  return vim.diagnostic.get(0)
end

-- Waits until as many are shown.
local function waits(count, when)
  if not vim.wait(30000, function() return #shown() == count end, 50) then
    fails(#shown() .. " diagnostics are shown, and not " .. count .. ", " .. when)
  end
end

-- Puts a text in the place of another one in a line, counted from 0.
local function puts(line, from, to)
  local old = vim.api.nvim_buf_get_lines(0, line, line + 1, true)[1]
  local start, stop = old:find(from, 1, true)
  if not start then
    fails("line " .. line .. " has no " .. from)
  end
  vim.api.nvim_buf_set_text(0, line, start - 1, line, stop, { to })
  return start - 1
end

-- What is shown is at this line and column, in bytes, and says this.
local function is_at(line, column, says)
  local it = shown()[1]
  if it.lnum ~= line or it.col ~= column or not it.message:find(says, 1, true) then
    fails("at line " .. it.lnum .. ", column " .. it.col .. ": " .. it.message)
  end
end

-- Waits until the buffer has a server.
local function waits_for_server()
  local initialized = vim.wait(30000, function()
    local clients = vim.tbl_values(vim.lsp.buf_get_clients(0))
    return #clients == 1 and clients[1].initialized
  end, 50)
  if not initialized then
    fails("no server is initialized")
  end
end

dofile(vim.env.SHADER_CHECK_LUA)
vim.cmd("edit")
waits_for_server()

-- a word that is no scalar
local column = puts(4, '"f32"', '"f33"')
waits(1, "after a word is broken")
is_at(4, column, "types[0]")
puts(4, '"f33"', '"f32"')
waits(0, "after the word is mended")

-- the same after a name of characters of two and of four bytes
puts(14, '"Blur", ["Struct", [["direction", 3', '"Blür🙂", ["Struct", [["direction", "3"')
waits(1, "after a number is quoted")
is_at(14, vim.api.nvim_buf_get_lines(0, 14, 15, true)[1]:find('"3"', 1, true) - 1, "types[10]")
puts(14, '"3"', "3")
waits(0, "after the number is mended")

-- no JSON
vim.api.nvim_buf_set_lines(0, 0, 0, true, { "x" })
waits(1, "after a line that is no JSON")
is_at(0, 0, "no JSON at line 1, column 1")
vim.api.nvim_buf_set_lines(0, 0, 1, true, {})
waits(0, "after the line is taken away")

-- WGSL: a name that is not declared, after a comment with characters of two and of four bytes
vim.cmd("edit! " .. vim.env.SHADER_CHECK_WGSL)
waits_for_server()
column = puts(28, "strength", "/* ü🙂 */ strenght")
waits(1, "after a name is misspelled")
is_at(28, column + #"/* ü🙂 */ ", "no definition in scope for identifier: `strenght`")
puts(28, "strenght", "strength")
waits(0, "after the name is mended")

-- a module that is read, and is not valid
column = puts(16, "let size", "if id.x { } let size")
waits(1, "after a condition is a number")
is_at(16, column, "the condition of an If must be a bool scalar")
puts(16, "if id.x { } let size", "let size")
waits(0, "after the condition is taken away")

vim.lsp.stop_client(vim.lsp.get_active_clients())
if not vim.wait(30000, function() return #vim.lsp.get_active_clients() == 0 end, 50) then
  fails("the server did not end")
end
vim.cmd("qall!")
