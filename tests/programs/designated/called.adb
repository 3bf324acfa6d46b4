--  A name of a number may begin with a call or a conversion, and is passed by copy to a formal of mode in (RM 4.1, 4.6, 6.2).
with Ada.Text_IO; use Ada.Text_IO;

procedure Called is
   type Ref is access Integer;
   type General is access all Integer;

   X : Ref := new Integer'(1);

   function Found return Ref is
   begin
      return X;
   end Found;

   procedure Show (N : in Integer) is
   begin
      Put_Line (Integer'Image (N));
   end Show;
begin
   Show (Found.all);
   Found.all := 3;
   Show (X.all);
   General (X).all := X.all + 1;
   Show (Found.all * 2);
end Called;
