# frozen_string_literal: true

module JekyllBikleinu
  # Sources of Jekyll's, in which what depends on the page beside its words is written so that it says which rendering it is in: a tag of
  # Jekyll's or a plugin's as a filter that gives its text, and `highlight` as a block.
  class Source
    VERBATIM = /\{%-?\s*raw\s*-?%\}.*?\{%-?\s*endraw\s*-?%\}|\{%-?\s*comment\s*-?%\}.*?\{%-?\s*endcomment\s*-?%\}/m
    # Tags that are functions of their own words, the page's and the site's data.
    TAG = /\{%(-?)\s*((?:seo|feed_meta)\b[^%{]*?)\s*(-?)%\}/
    HIGHLIGHT = /\{%(-?)\s*(highlight\b[^%{]*?)\s*(-?)%\}/
    END_HIGHLIGHT = /\{%(-?)\s*endhighlight\b[^%{]*?(-?)%\}/
    # What a template may set that a tag would then see.
    SET = /\{%-?\s*(?:assign|capture|for|tablerow)\s+(page|site|layout|paginator|content)\b/
    NAME = 'jekyll_rendering'
    FILTER = 'jekyll_tag'
    BLOCK = 'jekyll_highlight'

    # The texts of tags, by the numbers that stand for them.
    attr_reader :tags

    def initialize
      @tags = []
    end

    # The source in this language, or a Refused.
    def of(text)
      set = text[SET, 1]
      raise Refused, "the template sets `#{set}`" if set

      text.split(/(#{VERBATIM})/m).map.with_index { |part, at| at.odd? ? part : converted(part) }.join
    end

    private

    def converted(part)
      part = part.gsub(HIGHLIGHT) { opened(Regexp.last_match) }
      part = part.gsub(END_HIGHLIGHT) { "{%#{Regexp.last_match(1)} end#{BLOCK} #{Regexp.last_match(2)}%}" }
      part.gsub(TAG) { call(Regexp.last_match(1), "{% #{Regexp.last_match(2)} %}", Regexp.last_match(3)) }
    end

    # The beginning of a block, by Jekyll's own round its text, which stands in a variable then.
    def opened(found)
      before, words, after = found.captures
      "{%#{before} #{BLOCK} #{NAME}, #{number("{% #{words} %}{{ #{BLOCK} }}{% endhighlight %}")} #{after}%}"
    end

    def call(before, tag, after)
      "{{#{before} #{NAME} | #{FILTER}: #{number(tag)} #{after}}}"
    end

    def number(tag)
      @tags.index(tag) || (@tags.push(tag).length - 1)
    end
  end
end
