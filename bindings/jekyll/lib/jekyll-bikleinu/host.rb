# frozen_string_literal: true

module JekyllBikleinu
  # What is known of a site beyond the rules of paths, so that its pages need less of their data: the classes of its documents, and sources
  # that are written for the engine to find the paths of. A source that may do more than is known here is a Refused.
  class Host
    MARKUP = /#{Source::VERBATIM}|\{%.*?%\}|\{\{.*?\}\}/m
    WORDS = /\A\{([{%])-?\s*(.*?)\s*-?[}%]\}\z/m
    QUOTED = /("[^"]*"|'[^']*')/
    UNKNOWN = /\A(?:render|liquid)\b/
    # An include of Jekyll's, of a file, with pairs of a parameter and a text or a path.
    INCLUDE = %r{\Ainclude\s+([\w/.\-()+~#@]+)((?:\s+[\w-]+\s*=\s*(?:"[^"\\]*"|'[^'\\]*'|[\w.-]+))*)\z}
    PAIR = /([\w-]+)\s*=\s*(?:"[^"\\]*"|'[^'\\]*'|([\w.-]+))/
    PARAMETER = /(?<![[:word:].-])include\.(?!(?:first|last)\b)([[:alpha:]_][[:word:]-]*)/
    PARAMETERS = /(?<![[:word:].-])include(?![[:word:]-])/
    FAR_MEMBER = /\.\s+include\b/
    PATH = /[[:alpha:]_][[:word:]-]*(?:\.[[:alpha:]_][[:word:]-]*)*/
    LITERAL = /\A(?:true|false|nil|null|empty|blank)\z/
    COMPARED = /(?<![[:word:].\]"'-])(#{PATH})\s*(?:==|!=|<>)\s*(#{PATH})(?![[:word:].\["'-])/
    CONDITION = /\A(if|elsif|unless|case)\s+(.*)\z/m
    JOINED = /\s+(?:and|or)\s+/
    SEEN = /\A\s*#{PATH}\s*\z/
    OPERATOR = /==|!=|<>|<=|>=|<|>|\s+contains\s+/
    LOOP = /\A(for|tablerow)\s+[[:word:]-]+\s+in\s+([^(\s,][^\s,]*)\s*(.*)\z/m
    FILTERED = /\A(?:assign\s+[[:word:]-]+\s*=)?\s*((?:[^|"']|"[^"]*"|'[^']*')+)\|/m

    # Objects that lead to one another, or have members that they don't list.
    def documents
      [Jekyll::Drops::DocumentDrop, Jekyll::Drops::SiteDrop]
    end

    # The source in which an include's parameters are names that are assigned, as these are followed, and values that are compared are
    # asked for as little as for being there: documents are equal only to themselves.
    def passed(source)
      written(source) do |words, kind|
        words = outside(words) { |part| part.gsub(COMPARED) { compared(*Regexp.last_match.captures) } } if words.match?(CONDITION)
        marked(words, kind)
      end
    end

    # The source in which parameters are so too, and all is asked for as a whole but what is looped over from its beginning to its end, or
    # looked at for being there.
    def looped(source)
      written(source) do |words, kind|
        name, condition = words.match(CONDITION)&.captures if kind == '%'
        words = "#{name} true" if condition
        "#{[*condition ? compared_in(condition, name) : used(words, kind)].map { |it| "{{ #{it} }}" }.join}#{marked(words, kind)}"
      end
    end

    private

    # The source, with each markup as a block makes it of its words.
    def written(source, &)
      source.gsub(MARKUP) { |piece| piece.match?(Source::VERBATIM) ? piece : markup(piece, &) }
    end

    def markup(piece)
      kind, words = piece.match(WORDS)&.captures
      raise Refused, "a markup isn't known: #{piece}" if words.nil? || words.gsub(QUOTED, '').match?(/["']/) || words.match?(UNKNOWN)

      kind == '%' && words.match?(/\Ainclude\b/) ? included(words) : yield(renamed(words), kind)
    end

    def marked(words, kind)
      kind == '{' ? "{{ #{words} }}" : "{% #{words} %}"
    end

    # The words, with what stands between texts as a block makes it.
    def outside(words)
      words.split(QUOTED).map.with_index { |part, at| at.odd? ? part : yield(part) }.join
    end

    def included(words)
      name, pairs = words.match(INCLUDE)&.captures
      raise Refused, "an include isn't known: #{words}" unless name

      given = pairs.scan(PAIR).filter_map { |parameter, path| "{% assign #{name_of(parameter)} = #{renamed(path)} %}" if path }
      "#{given.join}{% include #{name} %}"
    end

    def renamed(words)
      outside(words) do |part|
        made = part.gsub(PARAMETER) { name_of(Regexp.last_match(1)) }
        raise Refused, "a use of parameters isn't known: #{words}" if made.match?(PARAMETERS) || part.match?(FAR_MEMBER)

        made
      end
    end

    def name_of(parameter)
      "jekyll_include_#{parameter.tr('-', '_')}"
    end

    def compared(one, other)
      [one, other].any?(LITERAL) ? "#{one} == #{other}" : "#{one} and #{other}"
    end

    # The values that a condition compares, or a case.
    def compared_in(condition, name)
      texts = []
      masked = condition.gsub(QUOTED) { |text| "'#{texts.push(text).length - 1}'" }
      sides = masked.split(JOINED).flat_map { |clause| name != 'case' && clause.match?(SEEN) ? [] : clause.split(OPERATOR) }
      sides.map { |side| side.gsub(/'(\d+)'/) { texts[Regexp.last_match(1).to_i] } }
    end

    # What a markup uses by a filter, or by a loop that is another one than over all of it.
    def used(words, kind)
      tag, looped, how = words.match(LOOP)&.captures if kind == '%'
      return (looped unless tag == 'for' && ['', 'reversed'].include?(how)) if looped

      words[FILTERED, 1] if kind == '{' || words.start_with?('assign')
    end
  end
end
