--  Where the body raises, no copy goes back; components are actuals in handlers too (RM 6.4.1, 11.4).
with Ada.Text_IO; use Ada.Text_IO;

procedure Raised is
   type R is record
      N : Integer := 1;
   end record;

   type Ref is access R;

   type Holder is record
      Inside : Ref;
   end record;

   V : R;
   H : Holder;

   procedure Fail (N : in out Integer) is
   begin
      N := 5;
      raise Program_Error;
   end Fail;

   procedure Add (N : in out Integer) is
   begin
      N := N + 1;
   end Add;

   procedure Make (To : out Ref) is
   begin
      To := new R;
   end Make;
begin
   begin
      Fail (V.N);
   exception
      when Program_Error =>
         Put_Line (Integer'Image (V.N));
         Add (V.N);
   end;
   Put_Line (Integer'Image (V.N));
   Make (H.Inside);
   Put_Line (Integer'Image (H.Inside.all.N));
end Raised;
