--  An `out` copy of an access type begins with the actual's value; it goes back where the body ends, and not where an
--  exception leaves it (RM 6.4.1).
with Ada.Text_IO; use Ada.Text_IO;

procedure Out_Access is
   type R is record
      N : Integer := 1;
   end record;

   type Ref is access R;

   procedure Keep (A : out Ref) is
   begin
      Put_Line (Boolean'Image (A = null));
   end Keep;

   procedure Renew (A : out Ref) is
   begin
      if A /= null then
         Put_Line ("was" & Integer'Image (A.N));
      end if;
      A := new R;
      A.N := 7;
   end Renew;

   procedure Fail (A : out Ref) is
   begin
      A.N := 8;
      A := null;
      raise Constraint_Error;
   end Fail;

   V, W : Ref;
begin
   Keep (V);
   Renew (V);
   W := V;
   W.N := 3;
   Keep (V);
   Renew (V);
   Put_Line (Integer'Image (V.N) & Integer'Image (W.N) & Boolean'Image (V = W));
   begin
      Fail (V);
   exception
      when Constraint_Error =>
         Put_Line (Integer'Image (V.N));
   end;
end Out_Access;
