--  The result of a body is evaluated before its object is finalized, whose Finalize changes what was read (RM 6.5).
with Ada.Finalization; use Ada.Finalization;
with Ada.Text_IO;      use Ada.Text_IO;

procedure Result_First is
   N : Integer := 1;

   type T is new Limited_Controlled with null record;

   overriding procedure Finalize (X : in out T);

   procedure Finalize (X : in out T) is
   begin
      N := 10;
   end Finalize;

   function F return Integer is
      V : T;
   begin
      return N;
   end F;
begin
   Put_Line (Integer'Image (F) & Integer'Image (N));
end Result_First;
