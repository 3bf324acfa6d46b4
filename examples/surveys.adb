--  Each survey has readings of a type of its own, which counts its copies in the survey. An assignment calls Finalize and Adjust of the survey
--  that it stands in, also in a procedure that is nested in the survey and calls itself, whichever object it assigns to (RM 3.10.2, 5.2, 7.6).
with Ada.Finalization; use Ada.Finalization;
with Ada.Text_IO;      use Ada.Text_IO;

procedure Surveys is
   procedure Survey (Depth : Integer) is
      Copies : Integer := 0;

      type Reading is new Controlled with record
         Value : Integer := 0;
      end record;

      overriding procedure Adjust (X : in out Reading);
      overriding procedure Finalize (X : in out Reading);

      procedure Adjust (X : in out Reading) is
      begin
         Copies := Copies + 1;
         Put_Line ("depth" & Integer'Image (Depth) & " copy" & Integer'Image (Copies) & " of" & Integer'Image (X.Value));
      end Adjust;

      procedure Finalize (X : in out Reading) is
      begin
         Put_Line ("depth" & Integer'Image (Depth) & " ends" & Integer'Image (X.Value));
      end Finalize;

      procedure Keep (X : Reading; Into : in out Reading; Times : Integer) is
         Mine : Reading;
      begin
         Mine := X;
         if Times > 1 then
            Keep (Mine, Into, Times - 1);
         else
            Into := Mine;
         end if;
      end Keep;

      Latest, Best : Reading;
   begin
      Latest.Value := 10 * Depth;
      if Depth < 2 then
         Survey (Depth + 1);
      end if;
      Keep (Latest, Best, 2);
      Latest := Best;
   end Survey;
begin
   Survey (1);
end Surveys;
