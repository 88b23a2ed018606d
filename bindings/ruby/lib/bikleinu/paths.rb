# frozen_string_literal: true

module Bikleinu
  # Paths in data, as a template would write them.
  module Paths
    # How much of a path and of a name is shown.
    SHOWN = 60

    # The path of these steps, as rows[321].price, of which the beginning is shown where it is long.
    def self.text(steps)
      path = +''
      steps.each do |step|
        return "#{path[0, SHOWN]}.." if path.length >= SHOWN

        path << one_step(step, path.empty?)
      end
      path
    end

    # A stranger's text on one line, of which no more than so many characters are shown.
    def self.shown(text, most = SHOWN)
      text = text.to_s
      text = text.encode(Encoding::UTF_8, invalid: :replace, undef: :replace, replace: '?')
      line = text[0, most].gsub(/[^[:print:]]/) { |it| format('\\u{%x}', it.ord) }
      text.length > most ? "#{line}.." : line
    rescue EncodingError
      '?'
    end

    def self.one_step(step, is_first)
      return "[#{step}]" if step.is_a?(Integer)

      name = shown(step)
      return "[\"#{name}\"]" unless name.match?(/\A[[:alpha:]_][[:alnum:]_-]*\z/)

      is_first ? name : ".#{name}"
    end
    private_class_method :one_step
  end
  private_constant :Paths
end
