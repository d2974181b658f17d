--- With real engines, which run the proved program: what Neovims make of each other's keys.
local Child = require('test.child')
local support = require('test.support')

local with_folder, two = Child.with_folder, Child.two

with_folder('two people write one text', function(open, folder)
  local ada, bo = two(open, folder)
  ada:type('itea 🍰<CR>milk<Esc>')
  bo:shows('tea 🍰\nmilk')
  bo:type('ggA漢!<Esc>')
  ada:shows('tea 🍰漢!\nmilk')
  ada:type('gg03xGdd')
  bo:shows(' 🍰漢!')
end)

with_folder('undo takes back one\'s own edit', function(open, folder)
  local ada, bo = two(open, folder)
  ada:type('imine<Esc>')
  bo:shows('mine')
  bo:type('0la yours <Esc>')
  ada:shows('mi yours ne')
  ada:type('u')
  bo:shows(' yours ')
  ada:type('<C-r>')
  bo:shows('mi yours ne')
  ada:shows('mi yours ne')
end)

with_folder('a last line end is neither made nor lost', function(open, folder)
  local ada, bo = two(open, folder)
  ada:type('ione<Esc>')
  bo:shows('one')
  support.same(false, bo:run('return vim.bo.endofline'))
  bo:type('otwo<CR><Esc>')
  ada:shows('one\ntwo\n')
  support.same('one', ada:run('return vim.fn.getline(1)'))
  -- The cursor of Ada is elsewhere, so the empty line behind the end is hidden as Vim does it.
  support.same(2, ada:run('return vim.fn.line("$")'))
  support.same(true, ada:run('return vim.bo.endofline'))
  ada:type('Gothree<Esc>')
  bo:shows('one\ntwo\nthree\n')
  ada:type('<Cmd>set noendofline<CR>')
  bo:shows('one\ntwo\nthree')
  ada:type('<Cmd>set endofline<CR>')
  bo:shows('one\ntwo\nthree\n')
  ada:type('ggdG')
  bo:shows('\n')
end)

with_folder('what commands change is what others get', function(open, folder)
  local ada, bo = two(open, folder)
  for _, keys in ipairs({
    'ione a b<CR>two a é🍰<CR>three a a a<CR>four<Esc>', ':%s/a/ä🍰/g<CR>', 'ggJ', 'ggdw', 'yyp', ':g/t/m0<CR>', 'ddp',
    'gg<C-v>Glld', '>>', ':%!sort<CR>', ':2,3d<CR>', 'gg0iaaaa<Esc>hiaa<Esc>', 'xp', '~', 'ggVGgU', 'gqG',
    ':%s/A/\\r/g<CR>', ':r !echo more<CR>', 'Go<C-v>xff <C-v>u0301 ü<Esc>', '.', 'ggcGall<CR>new<CR><Esc>', 'ggO<Esc>',
    ':%d<CR>', 'iend<Esc>', ':1,$m0<CR>', 'yy100p', ':t.<CR>', 'ggqaA.<Esc>jq50@a', ':sort!<CR>', ':retab<CR>',
    'ggguGG', 'ggdG',
  }) do
    ada:type((keys:gsub('^:', '<Cmd>')))
    if ada:run('return vim.api.nvim_get_mode().blocking') then
      ada:type('<Esc>')
    end
    bo:shows(Child.meet({ ada, bo }))
  end
end)

with_folder('cursors and selections stay where they are', function(open, folder)
  local ada, bo = two(open, folder)
  ada:type('ione<CR>two<CR>three four<Esc>')
  bo:shows('one\ntwo\nthree four')
  ada:type('0wve')
  support.same({ 3, 9 }, ada:run('return vim.api.nvim_win_get_cursor(0)'))
  bo:type('ggOnew 🍰<Esc>j0i>> <Esc>')
  bo:type('G0i!!<Esc>')
  ada:shows('new 🍰\n>> one\ntwo\n!!three four')
  support.same({ 4, 11 }, ada:run('return vim.api.nvim_win_get_cursor(0)'))
  support.same('v', ada:run('return vim.fn.mode()'))
  ada:type('d')
  bo:shows('new 🍰\n>> one\ntwo\n!!three ')
  -- In the middle of typing, in the same line.
  ada:type('ggAxy')
  bo:type('gg0i<lt><Esc>')
  ada:shows('<new 🍰xy\n>> one\ntwo\n!!three ')
  ada:type('z<Esc>')
  bo:shows('<new 🍰xyz\n>> one\ntwo\n!!three ')
  -- At a line's begin, where another line is opened above.
  ada:type('3G0')
  bo:type('3GOmore<Esc>')
  ada:shows('<new 🍰xyz\n>> one\nmore\ntwo\n!!three ')
  ada:type('dd')
  bo:shows('<new 🍰xyz\n>> one\nmore\n!!three ')
end)

with_folder('others\' cursors are shown with their names', function(open)
  local ada, bo = open('Ada'), open('Ada')
  ada:type('isome words<Esc>')
  bo:shows('some words')
  ada:type('0w')
  support.wait(function()
    local marks = bo:run([[
      local space = vim.api.nvim_get_namespaces().vialshoal
      return vim.api.nvim_buf_get_extmarks(0, space, 0, -1, { details = true })
    ]])
    return #marks == 1 and marks[1][3] == 5 and marks[1][4].virt_text[1][1] == ' Ada '
  end, 'a cursor')
  support.wait(function() return vim.startswith(bo:run('return v.statusline()'), 'Note:kept, 2 on') end, 'two to be on')
  local function selected(at, anchor)
    support.wait(function()
      local cursor = bo:run('return v.note().cursors[1]')
      return cursor.at == at and cursor.anchor == anchor
    end, 'a selection')
  end
  ada:type('vl')
  selected(6, 5)
  ada:type('<Esc>')
  selected(6, nil)
end)
