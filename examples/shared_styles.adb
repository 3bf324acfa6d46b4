--  A style refers to two colours through controlled handles. Where a style is assigned to, the manual calls the operations of its components:
--  each handle of the target gives its colour back, the target takes the value, and each handle counts one more use (RM 5.2, 7.6).
with Ada.Finalization; use Ada.Finalization;
with Ada.Text_IO;      use Ada.Text_IO;

procedure Shared_Styles is
   Uses_Of_Red  : Integer := 0;
   Uses_Of_Blue : Integer := 0;

   type Handle is new Controlled with record
      Colour : Integer := 0;
   end record;

   overriding procedure Adjust (X : in out Handle);
   overriding procedure Finalize (X : in out Handle);

   type Style is record
      Text   : Handle;
      Ground : Handle;
   end record;

   procedure Count (Colour : in Integer; By : in Integer) is
   begin
      if Colour = 1 then
         Uses_Of_Red := Uses_Of_Red + By;
         Put_Line ("red" & Integer'Image (Uses_Of_Red));
      elsif Colour = 2 then
         Uses_Of_Blue := Uses_Of_Blue + By;
         Put_Line ("blue" & Integer'Image (Uses_Of_Blue));
      end if;
   end Count;

   procedure Adjust (X : in out Handle) is
   begin
      Count (X.Colour, 1);
   end Adjust;

   procedure Finalize (X : in out Handle) is
   begin
      Count (X.Colour, -1);
   end Finalize;

   Title, Note : Style;
begin
   Title.Text.Colour := 1;
   Count (1, 1);
   Title.Ground.Colour := 2;
   Count (2, 1);
   Note := Title;
   Put_Line ("both are used twice");
   Note := Note;
   Title.Ground := Note.Text;
   Note := Title;
   Put_Line ("only red is used");
end Shared_Styles;
