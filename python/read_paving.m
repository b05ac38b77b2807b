function p = read_paving(file, root)
% READ_PAVING  Reads a paving that `paver run` printed or that --out stored, in Octave or MATLAB.
%
%   p = read_paving(file)          printed text, or a file of version 1
%   p = read_paving(file, root)    any of them; root is an n x 2 matrix, the search box as `paver check` prints it
%
% p.inner, p.small and p.open have a row for each box: low and high end of each variable in turn. p.removed counts the
% removed nodes, p.cut the cut ones, p.version is 0 for printed text. A file of version 2 needs root; open leaves do too.
%
% Numbers are rounded to the nearest double, which moves an end by less than one part in 2^53: boxes are not rounded
% outward here. Where that matters, use the Python package, which is exact.
%
%   p = read_paving('ring.txt', [-3 3; -3 3]);
%   b = p.inner; hold on
%   for k = 1:size(b,1), rectangle('Position', [b(k,1) b(k,3) b(k,2)-b(k,1) b(k,4)-b(k,3)]); end, axis equal
  if nargin < 2, root = []; end
  text = fileread(file);
  if isempty(text) || text(end) ~= sprintf('\n'), error('the last line has no end: was the text cut short?'); end
  [p, skipped, rows] = head_of(text);
  body = text(skipped+1:end);
  if ~isempty(root), root = reshape(root', 1, []); end
  ends = find(body == sprintf('\n'));
  kinds = body([1, ends(1:end-1) + 1])';
  [before, high] = tree_of(kinds);
  width = width_of(body, ends, kinds, rows, root);
  [to, variable, at] = numbers_of(body, kinds, width);
  if any(isnan(to(:))) && isempty(root), error('a file of version 2 needs the search box: give root'); end
  if isempty(root), root = NaN(1, width); end
  [box, to] = boxes_of(to, variable, at, kinds, high, root);
  p.inner = to(kinds == 'I', :);
  p.small = to(kinds == 'S', :);
  p.open = box(kinds == 'O', :);
  p.removed = sum(kinds == 'X');
  p.cut = sum(kinds == 'C');
end

function [p, skipped, rows] = head_of(text)
% The version, how many bytes stand before the nodes, and in how many lines.
  p = struct('version', 0, 'identity', '');
  ends = find(text(1:min(end, 1000)) == sprintf('\n'));
  first = text(1:ends(1)-1);
  if strncmp(first, 'settled ', 8)
    skipped = ends(1);
    rows = 1;
  elseif any(strcmp(first, {'paving 1', 'paving 2'})) && numel(ends) > 1
    p.version = str2double(first(8:end));
    p.identity = strrep(text(ends(1)+1:ends(2)-1), 'identity ', '');
    skipped = ends(2);
    rows = 2;
  else
    error('line 1 begins no paving');
  end
  if numel(text) == skipped, error('the tree is not whole: was the text cut short?'); end
end

function [before, high] = tree_of(kinds)
% How many nodes were to come before each one, and of each cut node its high half: the next node with as many to come.
  steps = -ones(size(kinds));
  steps(kinds == 'C') = 1;
  after = 1 + cumsum(steps);
  before = [1; after(1:end-1)];
  if any(before < 1), error('lines follow the whole tree'); end
  if after(end) ~= 0, error('the tree is not whole: was the text cut short?'); end
  [sorted, order] = sort(before);
  high = zeros(size(kinds));
  same = find(sorted(1:end-1) == sorted(2:end));
  high(order(same)) = order(same + 1);
end

function width = width_of(body, ends, kinds, rows, root)
% How many ends a box has; each line has to have as many words as its node.
  blanks = cumsum(body == ' ');
  words = diff([0, blanks(ends)])';
  cuts = kinds == 'C';
  settled = cuts | kinds == 'I' | kinds == 'S';
  width = numel(root);
  if isempty(root) && any(settled)
    k = find(settled, 1);
    width = words(k) - 2 * cuts(k);
  end
  wanted = settled * width + 2 * cuts;
  leaf = kinds == 'X' | kinds == 'O';
  bad = find(words ~= wanted | ~(settled | leaf), 1);
  if ~isempty(bad), error('line %d is no node of %d variables', bad + rows, width / 2); end
end

function [to, variable, at] = numbers_of(body, kinds, width)
% The ends of each node, NaN where `=` stands, and of each cut node its variable and where it is cut. m:e is m times 2^e: the
% mantissa is rounded to the nearest double, and the power is exact.
  body = strrep(body, '=', 'NaN NaN');
  body = strrep(strrep(body, '+oo', 'Inf 0'), '-oo', '-Inf 0');
  body(body == ':') = ' ';
  letters = body == 'C' | body == 'S' | body == 'X' | body == 'O';
  letters(1) = true;
  letters(find(body(1:end-1) == sprintf('\n')) + 1) = true;   % not those of Inf and NaN
  body(letters) = '1';
  found = sscanf(body, '%f');
  cuts = kinds == 'C';
  settled = cuts | kinds == 'I' | kinds == 'S';
  counts = 1 + 2 * width * settled + 3 * cuts;
  if numel(found) ~= sum(counts), error('a word is no number of a paving'); end
  first = cumsum([1; counts(1:end-1)]);
  variable = zeros(size(kinds));
  at = zeros(size(kinds));
  variable(cuts) = found(first(cuts) + 1);
  at(cuts) = found(first(cuts) + 2) .* 2 .^ found(first(cuts) + 3);
  to = zeros(numel(kinds), width);
  rows = find(settled);
  begin = first(rows) + 1 + 3 * cuts(rows);
  for k = 1:width
    to(rows, k) = found(begin + 2 * k - 2) .* 2 .^ found(begin + 2 * k - 1);
  end
end

function [box, to] = boxes_of(to, variable, at, kinds, high, root)
% The boxes of all nodes, and their ends in full: one level of the tree after the other.
  box = zeros(size(to));
  box(1, :) = root;
  level = 1;
  while ~isempty(level)
    part = to(level, :);
    around = box(level, :);
    same = isnan(part);
    part(same) = around(same);
    to(level, :) = part;
    cut = level(kinds(level) == 'C');
    low = cut + 1;
    box(low, :) = to(cut, :);
    box(high(cut), :) = to(cut, :);
    box(sub2ind(size(box), low, 2 * variable(cut) + 2)) = at(cut);
    box(sub2ind(size(box), high(cut), 2 * variable(cut) + 1)) = at(cut);
    level = [low; high(cut)];
  end
end
