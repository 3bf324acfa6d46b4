--  An access value that is designated itself is freed by, and becomes null (RM 13.11.2).
with Ada.Text_IO; use Ada.Text_IO;
with Ada.Unchecked_Deallocation;

procedure Freed_Inside is
   type Ref is access Integer;
   type Outer is access Ref;

   procedure Free is new Ada.Unchecked_Deallocation (Integer, Ref);

   Y : Outer := new Ref'(new Integer'(1));
   X : Ref   := Y.all;
begin
   Free (Y.all);
   Put_Line (Boolean'Image (Y.all = null));
   X.all := 2;
end Freed_Inside;
